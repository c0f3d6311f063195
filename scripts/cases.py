#!/usr/bin/env python3
"""Works out what the cases of crates/run_cases/stdin must give, from the definitions alone (docs/CASES.md).

It shares no line with the program. The model behind it stands in scripts/model: levels, files, requests as bytes,
the library, and sessions over objects of which numbered calls fail. Usage:
    scripts/cases.py            compares with crates/run_cases/stdout, and tells which cases differ
    scripts/cases.py NAME ..    prints what these cases must give
    scripts/cases.py --all      prints what all must give
"""
import hashlib
import os
import sys

from model.library import Library
from model.session import Calls, Sink, Source, Vault, World, run
from model.files import Builder

TOP = os.path.join(os.path.dirname(os.path.abspath(__file__)), "..", "crates", "run_cases")

# ---- Cases as text


def blocks(text):
    for block in text.split("\n\n"):
        lines = [l for l in block.split("\n") if l and not l.startswith("#")]
        if lines:
            yield lines


class Case:
    """A run: its words, its inputs, how its objects behave, and what its tables begin as."""

    def __init__(self, files, library, tokens):
        self.files, self.library, self.tokens = files, library, tokens  # how many requests came under a number
        self.words, self.inputs, self.brief = ["session"], [b""], None
        self.piece = self.room = None
        self.failing = {k: [] for k in ("source", "sink", "keeper", "vault", "door")}
        self.plain()

    def plain(self):
        """The next request is one as any other."""
        self.token, self.name, self.album, self.times, self.closing = None, None, None, 1, False

    def add(self, data):
        self.inputs[-1] += data

    def fill(self, count):
        self.inputs[-1] = (self.inputs[-1] + b"-" * count)[:count]

    def request(self, method, target, body=None):
        """Adds a request as often as it is to come, with the lines that the lines before asked for."""
        for _ in range(self.times):
            lines = [f"{method} {target} HTTP/1.1", "Host: a"]
            if method != "GET":
                self.tokens += self.token is None
                lines.append(f"Request-Token: {self.token or self.tokens}")
            lines += [] if self.name is None else [f"Recording-Name: {self.name}"]
            lines += [] if body is None else [f"Content-Length: {len(body)}"]
            lines += ["Connection: close"] if self.closing else []
            self.add("".join(l + "\r\n" for l in lines + [""]).encode() + (body or b""))
        self.plain()

    def obey(self, line):
        word, _, rest = line.partition(" ")
        first, _, second = rest.partition(" ")
        act = self.LINES.get(word)
        if act is None:
            raise ValueError(line)
        act(self, rest, first, second)

    def set_failing(self, rest, first, second):
        self.failing[first] = [int(n) for n in second.split()]

    def set_album(self, rest, first, second):
        for r in self.library.recordings.values():
            r.album = int(second) if r.id == int(first) else r.album

    LINES = {
        "words": lambda c, rest, *_: setattr(c, "words", ["" if w == "''" else w for w in rest.split()]),
        "fails": set_failing,
        "pieces": lambda c, rest, *_: setattr(c, "piece", max(1, int(rest))),
        "room": lambda c, rest, *_: setattr(c, "room", max(1, int(rest))),
        "brief": lambda c, rest, *_: setattr(c, "brief", int(rest)),
        "next-album": lambda c, rest, *_: setattr(c.library, "next_album", int(rest)),
        "next-recording": lambda c, rest, *_: setattr(c.library, "next_recording", int(rest)),
        "next-take": lambda c, rest, *_: setattr(c.library, "next_take", int(rest)),
        "row-album": set_album,
        "connection": lambda c, *_: c.inputs.append(b""),
        # of the next request
        "token": lambda c, rest, *_: setattr(c, "token", rest),
        "named": lambda c, rest, *_: setattr(c, "name", rest),
        "into": lambda c, rest, *_: setattr(c, "album", rest),
        "times": lambda c, rest, *_: setattr(c, "times", int(rest)),
        "closing": lambda c, *_: setattr(c, "closing", True),
        # requests
        "new-album": lambda c, rest, *_: c.request("POST", "/albums", b'{"name":"%s"}' % rest.encode()),
        "import": lambda c, rest, *_: c.request(
            "POST", "/recordings" if c.album is None else f"/albums/{c.album}/recordings", c.files[rest]),
        "retake": lambda c, _, first, second: c.request("PUT", f"/recordings/{first}/audio", c.files[second]),
        "move": lambda c, _, first, second: c.request(
            "PUT", f"/recordings/{first}/album", b'{"album":%s}' % (b"null" if second == "none" else second.encode())),
        "remove": lambda c, rest, *_: c.request("DELETE", f"/recordings/{rest}"),
        "remove-album": lambda c, rest, *_: c.request("DELETE", f"/albums/{rest}"),
        "ask": lambda c, rest, *_: c.request("GET", f"/recordings/{rest}"),
        "ask-album": lambda c, rest, *_: c.request("GET", f"/albums/{rest}"),
        "post": lambda c, _, first, second: c.request("POST", first, second.encode()),
        "put": lambda c, _, first, second: c.request("PUT", first, second.encode()),
        "delete": lambda c, rest, *_: c.request("DELETE", rest),
        "get": lambda c, rest, *_: c.request("GET", rest),
        # bytes
        ">": lambda c, rest, *_: c.add(rest.encode() + b"\r\n"),
        "length": lambda c, rest, *_: c.add(b"Content-Length: %d\r\n" % len(c.files[rest])),
        "body": lambda c, rest, *_: c.add(c.files[rest]),
        "hex": lambda c, rest, *_: c.add(bytes.fromhex(rest.replace(" ", ""))),
        "fill": lambda c, rest, *_: c.fill(int(rest)),
    }


# ---- What is printed of a case


def written(data):
    named = {13: "\\r", 10: "\\n", 92: "\\\\"}
    return "".join(named.get(b) or (chr(b) if 0x20 <= b <= 0x7E else f"\\x{b:02x}") for b in data)


def replies(data):
    """The bytes, cut where a reply begins."""
    parts = data.split(b"HTTP/1.1 ")
    return [p for p in [parts[0]] + [b"HTTP/1.1 " + p for p in parts[1:]] if p]


def digest(data):
    return f"{len(data)} bytes, md5 {hashlib.md5(data).hexdigest()}"


def summary_text(summary):
    fields = (f"{k}: {v if k in ('frames', 'peak') else 'None' if v is None else f'Some({v})'}"
              for k, v in summary.items())
    return f"Summary {{ {', '.join(fields)} }}"


def last(kind, lines, brief):
    """The last of the lines, as many as are to be printed, behind how many are not."""
    lines = list(lines)
    left = 0 if brief is None else max(0, len(lines) - brief)
    return ([f"{kind}: {left} more"] if left else []) + lines[left:]


def recording_line(r):
    album = "None" if r.album is None else f"Some({r.album})"
    return (f"recording {r.id}: take {r.take}, {r.kind.capitalize()}, {r.channels} channels, {r.depth} bits, "
            f'album {album}, name "{written(r.name)}", md5 {r.digest}, {summary_text(r.summary)}')


def report(name, case, status, sink, wrote, world):
    library, brief = world.library, case.brief
    yield f"case {name}"
    yield f"status {status}"
    yield from last("output", (f"output {written(p)}" for p in replies(sink.written)), brief)
    for number, data in enumerate(wrote, 1):
        yield from last(f"connection {number}", (f"connection {number} {written(p)}" for p in replies(data)), brief)
    yield f"counters {library.next_album} {library.next_recording} {library.next_take}"
    for id in sorted(library.names):
        yield f'album {id}: name "{written(library.names[id])}", {summary_text(library.summaries[id])}'
    recordings = [r for _, r in sorted(library.recordings.items())]
    yield from last("recordings", map(recording_line, recordings), brief)
    energies = {r.take: b"".join(v.to_bytes(11, "big") for v in r.measured.energies) for r in recordings}
    yield from last("segments", (f"segments {t}: {digest(b)}" for t, b in sorted(energies.items())), brief)
    yield from last("kept", (f"kept {t.decode()}: mark {mark.hex()}, status {status}, {digest(body)}"
                             for t, (mark, status, body) in sorted(library.replies.items())), brief)
    yield from last("keys", (f"key {k}: {digest(b)}" for k, b in sorted(world.vault.blobs.items())), brief)
    yield f"calls of the vault {world.vault.calls.count}"


# ---- Cases in order


class Told:
    """The files and the cases so far."""

    def __init__(self):
        self.files, self.lines = {}, {}

    def case(self, lines, over=True):
        """The case of the lines, over empty tables or those that an earlier one leaves."""
        library, tokens = Library(), 0
        for line in lines:
            if over and line.startswith("over "):
                case = self.case(self.lines[line[5:]], False)
                library, tokens = self.run(case)[-1].library, case.tokens
        case = Case(self.files, library, tokens)
        for line in lines:
            if line.startswith("like "):
                for other in self.lines[line[5:]]:
                    case.obey(other)
            elif not line.startswith("over "):
                case.obey(line)
        return case

    def run(self, case):
        """The exit status, the sink, what connections wrote, and the world that is left."""
        world = World(case.library, Calls(case.failing["keeper"]), Vault(case.failing["vault"]))
        source = Source(case.inputs[0], case.failing["source"], case.piece)
        sink = Sink(case.failing["sink"], case.room)
        status, wrote = run(case.words, world, source, sink, case.inputs[1:], Calls(case.failing["door"]))
        return status, sink, wrote, world

    def obey(self, lines):
        """Makes a file, or answers the name of a case and what it gives."""
        kind, _, name = lines[0].partition(" ")
        if kind == "file":
            self.files[name] = Builder().file(lines[1:])
            return None
        if kind != "case" or name in self.lines:
            raise ValueError(lines[0])
        case = self.case(lines[1:])
        self.lines[name] = lines[1:]
        return name, "\n".join(report(name, case, *self.run(case)))


def main():
    told = Told()
    with open(os.path.join(TOP, "stdin")) as f:
        given = [g for g in map(told.obey, blocks(f.read())) if g]
    if sys.argv[1:]:
        for name, text in given:
            if sys.argv[1:] == ["--all"] or name in sys.argv[1:]:
                print(text + "\n")
        return 0
    with open(os.path.join(TOP, "stdout")) as f:
        kept = {b.split("\n")[0][5:]: b.rstrip("\n") for b in f.read().split("\n\n") if b.strip()}
    wrong = [name for name, text in given if text != kept.get(name)]
    for name in wrong:
        print("differs: " + name)
    print(f"{len(given) - len(wrong)} the same, {len(wrong)} differ")
    return 1 if wrong or len(kept) != len(given) else 0


if __name__ == "__main__":
    sys.exit(main())
