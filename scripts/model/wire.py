"""Requests as bytes, what they ask, and replies as bytes (RFC 9110, RFC 9112, RFC 8259; docs/HTTP.md)."""
import hashlib
import re

HEAD_LIMIT, FIELD_LIMIT, BODY_LIMIT = 8192, 32, 268435456
END = 2147483647  # no id, and no take, from here on

# ---- Heads

TOKEN_BYTES = set(b"!#$%&'*+-.^_`|~0123456789ABCDEFGHIJKLMNOPQRSTUVWXYZabcdefghijklmnopqrstuvwxyz")


class Open(Exception):
    """The bytes end inside a head."""


class Never(Exception):
    """No head begins the bytes, however they go on."""


class Head:
    """A head: its method, its target, the last digit of its version, its fields, and its length."""

    def __init__(self, method, target, minor, fields, length):
        self.method, self.target, self.minor, self.fields, self.length = method, target, minor, fields, length

    def values(self, name):
        return [value for field, value in self.fields if field.lower() == name.lower().encode()]

    def closes(self):
        return self.minor == 0 or any(value.lower() == b"close" for value in self.values("Connection"))


class Reader:
    def __init__(self, b):
        self.b, self.at = b, 0

    def peek(self):
        if self.at == len(self.b):
            raise Open
        return self.b[self.at]

    def expect(self, text):
        for byte in text:
            if self.peek() != byte:
                raise Never
            self.at += 1

    def line_end(self):
        if self.peek() == 13:
            self.at += 1
        self.expect(b"\n")

    def run(self, test):
        start = self.at
        while test(self.peek()):
            self.at += 1
        return self.b[start:self.at]


def is_utf8(b):
    try:
        b.decode("utf-8")
        return True
    except UnicodeDecodeError:
        return False


def parse_head(b):
    """The head that begins the bytes, or Open, or Never."""
    r = Reader(b)
    while r.peek() in b"\r\n":
        r.line_end()
    method = r.run(lambda byte: byte in TOKEN_BYTES)
    if not method:
        raise Never
    r.expect(b" ")
    target = r.run(lambda byte: byte > 0x20 and byte != 0x7F)
    if not target or not is_utf8(target):
        raise Never
    r.expect(b" HTTP/1.")
    minor = r.peek() - ord("0")
    if minor not in (0, 1):
        raise Never
    r.at += 1
    r.line_end()
    fields = []
    while r.peek() not in b"\r\n":
        name = r.run(lambda byte: byte in TOKEN_BYTES)
        if not name or len(fields) == FIELD_LIMIT:
            raise Never
        r.expect(b":")
        value = r.run(lambda byte: byte == 9 or byte >= 0x20 and byte != 0x7F)
        r.line_end()
        fields.append((name, value.strip(b" \t")))
    r.line_end()
    return Head(method, target, minor, fields, r.at)


def extent(head):
    """How long the body is behind a head, or the status and the word by which it is refused."""
    sizes = head.values("Content-Length")
    if head.values("Transfer-Encoding") or len(sizes) > 1:
        return 400, "frame"
    if not sizes:
        return (411, "length") if head.method in (b"POST", b"PUT") else 0
    if not re.fullmatch(rb"[0-9]{1,18}", sizes[0]):
        return 400, "frame"
    return int(sizes[0]) if int(sizes[0]) <= BODY_LIMIT else (413, "size")


# ---- JSON, as serde_json reads it into a value

ESCAPES = {"b": "\b", "f": "\f", "n": "\n", "r": "\r", "t": "\t", '"': '"', "\\": "\\", "/": "/"}
NUMBER = re.compile(r"-?(0|[1-9][0-9]*)(\.[0-9]+)?([eE][+-]?[0-9]+)?")
DEPTH = 127


class NoJson(Exception):
    pass


class Json:
    def __init__(self, text):
        self.text, self.at = text, 0

    def fail(self):
        raise NoJson

    def skip(self):
        while self.text[self.at:self.at + 1] in (" ", "\t", "\n", "\r"):
            self.at += 1
        return self.text[self.at:self.at + 1]

    def take(self, word):
        if not self.text.startswith(word, self.at):
            self.fail()
        self.at += len(word)

    def whole(self):
        value = self.value(DEPTH)
        if self.skip():
            self.fail()
        return value

    def value(self, depth):
        first = self.skip()
        for word, value in (("null", None), ("true", True), ("false", False)):
            if first == word[0]:
                self.take(word)
                return value
        if first == '"':
            return self.string()
        if first in ("[", "{") and first:
            return self.list(depth) if first == "[" else self.object(depth)
        return self.number()

    def number(self):
        found = NUMBER.match(self.text, self.at)
        if not found:
            self.fail()
        self.at = found.end()
        whole = found.group(2) is None and found.group(3) is None
        if whole and found.group() != "-0" and -2 ** 63 <= int(found.group()) < 2 ** 64:
            return int(found.group())
        value = float(found.group())
        return self.fail() if value in (float("inf"), float("-inf")) else value

    def string(self):
        self.take('"')
        out = ""
        while True:
            c = self.text[self.at:self.at + 1]
            self.at += 1
            if c == '"':
                return out
            if not c or c < " ":
                self.fail()
            out += self.escape() if c == "\\" else c

    def escape(self):
        c = self.text[self.at:self.at + 1]
        self.at += 1
        if c != "u":
            return ESCAPES[c] if c in ESCAPES else self.fail()
        unit = self.unit()
        if 0xD800 <= unit < 0xDC00:
            self.take("\\u")
            low = self.unit()
            return chr(0x10000 + (unit - 0xD800 << 10) + low - 0xDC00) if 0xDC00 <= low < 0xE000 else self.fail()
        return self.fail() if 0xDC00 <= unit < 0xE000 else chr(unit)

    def unit(self):
        digits = self.text[self.at:self.at + 4]
        if not re.fullmatch("[0-9a-fA-F]{4}", digits):
            self.fail()
        self.at += 4
        return int(digits, 16)

    def list(self, depth):
        self.take("[")
        values = []
        if not depth:
            self.fail()
        if self.skip() == "]":
            self.at += 1
            return values
        while True:
            values.append(self.value(depth - 1))
            if self.skip() == "]":
                self.at += 1
                return values
            self.take(",")

    def object(self, depth):
        self.take("{")
        values = {}
        if not depth:
            self.fail()
        if self.skip() == "}":
            self.at += 1
            return values
        while True:
            self.skip()
            key = self.string()
            self.skip()
            self.take(":")
            values[key] = self.value(depth - 1)
            if self.skip() == "}":
                self.at += 1
                return values
            self.take(",")


def only(key, body):
    """(the value of that key, True) of an object that has no other key, or (None, False)."""
    try:
        found = Json(body.decode("utf-8")).whole()
    except (UnicodeDecodeError, NoJson):
        return None, False
    good = isinstance(found, dict) and list(found) == [key]
    return (found[key], True) if good else (None, False)


def is_name(b):
    return is_utf8(b) and len(b) <= 200 and all(byte >= 0x20 and byte != 0x7F for byte in b)


def name_in(body):
    name, found = only("name", body)
    return name.encode() if found and isinstance(name, str) and is_name(name.encode()) else None


def album_in(body):
    """(the album that is chosen, True), or (None, False)."""
    album, found = only("album", body)
    good = found and (album is None or type(album) is int and 1 <= album < END)
    return (album, True) if good else (None, False)


# ---- What is asked

ROUTES = [("/albums", "POST", "albums"), ("/recordings", "POST", "recordings"),
          ("/albums/{}/recordings", "POST", "into"), ("/recordings/{}/audio", "PUT", "audio"),
          ("/recordings/{}/album", "PUT", "group"), ("/recordings/{}", "GET, DELETE", "recording"),
          ("/albums/{}", "GET, DELETE", "album")]


def id_asked(text):
    """The id that a text writes, and 0, which nothing has, where it writes none."""
    return int(text) if re.fullmatch("[1-9][0-9]{0,9}", text) and int(text) < END else 0


def route_of(target):
    """(what a target names, its id, its methods), or None."""
    for path, methods, what in ROUTES:
        found = re.fullmatch(path.replace("{}", "([^/]+)"), target)
        if found:
            return what, id_asked(found.group(1)) if found.groups() else None, methods
    return None


class Asked:
    """`refused` (status, word, methods that are allowed), `question` (what, id), or `change` (token, mark, and a
    command or the refusal of its form)."""

    def __init__(self, kind, *parts):
        self.kind, self.parts = kind, parts


def mark_of(method, target, name, body):
    return hashlib.md5(b"\n".join([method, target, name, body])).digest()


def command_of(what, id, names, body):
    """The command of a change, or the word by which its form is refused."""
    if what in ("recordings", "into"):
        name = b"" if not names else names[0]
        return ("import", id, name, body) if len(names) < 2 and is_name(name) else "name"
    if what == "albums":
        name = name_in(body)
        return "body" if name is None else ("new-album", name)
    if what == "group":
        album, good = album_in(body)
        return ("group", id, album) if good else "body"
    return {"audio": ("retake", id, body), "recording": ("remove", id), "album": ("remove-album", id)}[what]


def asked_of(head, body):
    route = route_of(head.target.decode())
    if route is None:
        return Asked("refused", 404, "no-route", None)
    what, id, methods = route
    if head.method.decode() not in methods.split(", "):
        return Asked("refused", 405, "method", methods)
    if head.method == b"GET":
        return Asked("question", what, id)
    tokens, names = head.values("Request-Token"), head.values("Recording-Name")
    if len(tokens) != 1 or not re.fullmatch(rb"[A-Za-z0-9-]{1,64}", tokens[0]):
        return Asked("refused", 400, "token", None)
    mark = mark_of(head.method, head.target, names[0] if len(names) == 1 else b"", body)
    return Asked("change", tokens[0], mark, command_of(what, id, names, body))


# ---- Replies

REASONS = {200: "OK", 201: "Created", 400: "Bad Request", 404: "Not Found", 405: "Method Not Allowed",
           409: "Conflict", 411: "Length Required", 413: "Content Too Large", 422: "Unprocessable Content",
           502: "Bad Gateway", 504: "Gateway Timeout"}


def spelled(status, body, closes, allows=None):
    """The head and the body of a reply."""
    head = f"HTTP/1.1 {status} {REASONS[status]}\r\nContent-Type: application/json\r\n"
    head += f"Allow: {allows}\r\n" if allows else ""
    head += f"Content-Length: {len(body)}\r\n" + ("Connection: close\r\n" if closes else "") + "\r\n"
    return head.encode(), body


def error(word):
    return ('{"error":"%s"}' % word).encode()
