"""Sessions over objects of which numbered calls fail, and the commands of the program (docs/HTTP.md, README)."""
import re

from model.wire import HEAD_LIMIT, Never, Open, asked_of, error, extent, parse_head, spelled

PIECE = 65536  # how many bytes of a body a read asks for
USAGE = b"usage: loudlib session, serve, report, audit, trial or tag\n"


class Fault(Exception):
    pass


class Calls:
    """Counts calls, of which those of these numbers fail, from 1."""

    def __init__(self, failing=()):
        self.failing, self.count = set(failing), 0

    def call(self):
        self.count += 1
        if self.count in self.failing:
            raise Fault


class Source:
    def __init__(self, data, failing=(), piece=None):
        self.data, self.at, self.piece, self.calls = data, 0, piece, Calls(failing)

    def read(self, most):
        self.calls.call()
        found = self.data[self.at:self.at + min(most, self.piece or most)]
        self.at += len(found)
        return found


class Sink:
    def __init__(self, failing=(), room=None):
        self.written, self.room, self.calls = b"", room, Calls(failing)

    def write_all(self, piece):
        while piece:
            self.calls.call()
            taken = piece[:self.room or len(piece)]
            self.written, piece = self.written + taken, piece[len(taken):]


class Vault:
    def __init__(self, failing=()):
        self.blobs, self.calls = {}, Calls(failing)

    def put(self, key, blob):
        self.calls.call()
        self.blobs[key] = blob

    def drop(self, key):
        self.calls.call()
        self.blobs.pop(key, None)


class World:
    """A library with the calls of its keeper, and its vault."""

    def __init__(self, library, keeper, vault):
        self.library, self.keeper, self.vault = library, keeper, vault

    def change(self, token, mark, command):
        """The status and the body of the reply to a change."""
        seen = self.library.seen(token, mark)
        if seen:
            return seen
        if isinstance(command, str):
            return 400, error(command)
        decided = self.library.decide(command)
        return decided if isinstance(decided, tuple) else self.commit(decided, token, mark)

    def commit(self, change, token, mark):
        try:
            if change.file is not None:
                self.vault.put(self.library.next_take, change.file)
        except Fault:
            return 502, error("vault")
        try:
            self.keeper.call()
        except Fault:
            return 504, error("keeper")
        reply = self.library.make(change, token, mark)
        try:
            if change.released is not None:
                self.vault.drop(change.released)
        except Fault:
            pass
        return reply

    def reply(self, asked):
        """The status, the body and the methods that are allowed."""
        if asked.kind == "refused":
            status, word, allows = asked.parts
            return status, error(word), allows
        if asked.kind == "question":
            return *self.library.answer(*asked.parts), None
        return *self.change(*asked.parts), None


class Unframeable(Exception):
    pass


class Inbox:
    """Reads requests out of a source in pieces: at most as many bytes as a head may have, and bodies straight."""

    def __init__(self, source):
        self.held, self.source = b"", source

    def next(self):
        """The next request as its head and its body, or None at the end."""
        head = self.head()
        if head is None:
            return None
        size = extent(head)
        if isinstance(size, tuple):
            raise Unframeable(*size)
        body = self.held[head.length:head.length + size]
        self.held = self.held[head.length + size:]
        return head, self.rest(body, size)

    def head(self):
        while True:
            try:
                return parse_head(self.held)
            except Never:
                raise Unframeable(400, "frame")
            except Open:
                if len(self.held) == HEAD_LIMIT:
                    raise Unframeable(400, "frame")
            if not self.draw():
                if self.held:
                    raise Unframeable(400, "frame")
                return None

    def draw(self):
        piece = self.source.read(HEAD_LIMIT - len(self.held))
        self.held += piece
        return piece

    def rest(self, body, size):
        parts, have = [body], len(body)
        while have < size:
            end = have + min(PIECE, size - have)
            while have < end:
                parts.append(self.source.read(end - have))
                have += len(parts[-1])
                if not parts[-1]:
                    raise Unframeable(400, "frame")
        return b"".join(parts)


def session(world, source, sink, requests):
    """How a session ends, and how many requests it answered."""
    inbox, answered = Inbox(source), 0
    while True:
        try:
            if answered == requests:
                return ("turns" if inbox.held or inbox.draw() else "ended"), answered
            found = inbox.next()
        except Fault:
            return "source-fault", answered
        except Unframeable as refusal:
            status, word = refusal.args
            return send(sink, [b"".join(spelled(status, error(word), True))]) or "unframeable", answered
        if found is None:
            return "ended", answered
        head, body = found
        status, reply, allows = world.reply(asked_of(head, body))
        if send(sink, spelled(status, reply, head.closes(), allows)):
            return "sink-fault", answered
        answered += 1
        if head.closes():
            return "ended", answered


def send(sink, parts):
    """None where the parts were written, one after another."""
    try:
        for part in parts:
            sink.write_all(part)
    except Fault:
        return "sink-fault"


# ---- The words

OPTIONS = {"session": {"--workers": (1, 64), "--requests": (1, 2 ** 32 - 1)},
           "serve": {"--connections": (1, 65535), "--workers": (1, 64), "--requests": (1, 2 ** 32 - 1)}}


def command_of(words):
    """(the first word, its numbers by their options), or None."""
    if not words or len(words) > 8 or words[0] not in OPTIONS:
        return None
    if any(w in ("", "--") or re.match("-[^-]|-$", w) for w in words):
        return None
    found, rest = {}, list(words[1:])
    while rest:
        name, equals, value = rest.pop(0).partition("=")
        if name not in OPTIONS[words[0]] or name in found or (not equals and not rest):
            return None
        value = value if equals else rest.pop(0)
        low, high = OPTIONS[words[0]][name]
        if not re.fullmatch(r"\+?[0-9]+", value) or not low <= int(value) <= high:
            return None
        found[name] = int(value)
    return None if words[0] == "serve" and "--connections" not in found else (words[0], found)


# ---- Runs

STATUSES = {"ended": 0, "unframeable": 2, "source-fault": 3, "sink-fault": 4, "turns": 8}


def print_line(sink, line, meant):
    return 4 if send(sink, [line]) else meant


def serve(world, waiting, door, sink, numbers):
    """The exit status, and what each connection that was let in wrote."""
    wrote = []
    for number in range(1, numbers["--connections"] + 1):
        try:
            door.call()
        except Fault:
            return 10, wrote
        if not waiting:
            return 10, wrote
        out = Sink()
        how, answered = session(world, Source(waiting.pop(0)), out, numbers.get("--requests", 1000000))
        wrote.append(out.written)
        if send(sink, [b"connection %d %s %d\n" % (number, how.encode(), answered)]):
            return 4, wrote
    return 0, wrote


def run(words, world, source, sink, waiting, door):
    """The exit status, and what each connection that was let in wrote."""
    command = command_of(words)
    if command is None:
        return print_line(sink, USAGE, 1), []
    try:
        world.keeper.call()
    except Fault:
        return 6, []
    bad = world.library.bad_row()
    if bad:
        return print_line(sink, b"bad row: table %d id %d rule %d\n" % bad, 7), []
    word, numbers = command
    if word == "serve":
        return serve(world, waiting, door, sink, numbers)
    how, _ = session(world, source, sink, numbers.get("--requests", 1000000))
    return STATUSES[how], []
