#!/usr/bin/env python3
"""Kills a server of a library at random moments, starts it again, and compares it with the model of scripts/model.

A client sends imports, retakes, moves, albums and removals, each under a token of its own. After a kill it sends the
request again that was not answered. Each reply must be the model's; after each start every recording and every album
must be answered as the model answers it, and the file of each take must be the one that was sent: so every acknowledged
change is there, and a repeat settles the one that was lost. Each kept reply must come again where its token does, and at
most one file is left that was not whole.

usage: scripts/kill-and-restart.py [ROUNDS [SEED]]      (200 rounds take some five minutes; port 8330 must be free)
LOUDLIB_PROGRAM names another program than ./loudlib.
"""
import atexit
import hashlib
import os
import random
import re
import shutil
import socket
import subprocess
import sys
import tempfile
import threading
import time

from model.files import Builder
from model.library import Library
from model.session import Calls, Vault, World
from model.wire import asked_of, parse_head

PORT = 8330
HERE = os.path.dirname(os.path.abspath(__file__))
PROGRAM = os.environ.get("LOUDLIB_PROGRAM", os.path.join(HERE, "..", "loudlib"))
FAULTS = (502, 503, 504)
FEW = 150  # recordings, above which more are removed than imported

# ---- What is sent


def files():
    """Waves of some lengths and levels, and bytes that are none."""
    made = []
    for frames, half, value in [(4, 0, 5), (4800, 24, 3000), (19200, 24, 16384), (24000, 60, 900), (48000, 12, 20000)]:
        for channels in (1, 2):
            tones = " ".join(f"{half}:{value // (c + 1)}" for c in range(channels))
            made.append(Builder().file([f"wave {channels} 16", f"stretch {frames} {tones}"]))
    return made + [b"ID3", made[2][:-1000]]


FILES = files()
SILENCE = 20  # seconds after which a connection is not used again: the server waits for 30


def request(method, target, token=None, body=None, name=None):
    lines = [f"{method} {target} HTTP/1.1", "Host: a"]
    lines += [f"Request-Token: {token}"] if token else []
    lines += [f"Recording-Name: {name}"] if name else []
    lines += [f"Content-Length: {len(body)}"] if body is not None else []
    return "".join(l + "\r\n" for l in lines + [""]).encode() + (body or b"")


def change(random, library, token):
    """A change that the library may take or refuse."""
    some = lambda ids: random.choice(sorted(ids) + [999]) if ids else 999
    recording, album = some(library.recordings), some(library.names)
    file = random.choice(FILES)
    removals = 3 if len(library.recordings) < FEW else 12
    return random.choices([
        lambda: request("POST", "/albums", token, b'{"name":"album %s"}' % token.encode()),
        lambda: request("POST", "/recordings", token, file, f"recording {token}"),
        lambda: request("POST", f"/albums/{album}/recordings", token, file),
        lambda: request("PUT", f"/recordings/{recording}/audio", token, file),
        lambda: request("PUT", f"/recordings/{recording}/album", token,
                        b'{"album":%s}' % (b"null" if random.random() < 0.3 else b"%d" % album)),
        lambda: request("DELETE", f"/recordings/{recording}", token),
        lambda: request("DELETE", f"/albums/{album}", token),
    ], weights=[2, 3, 6, 5, 5, removals, 1])[0]()


# ---- The server


class Lost(Exception):
    """The server went away."""


def is_held():
    """Whether something listens at the port (0x208A), which is not asked."""
    with open("/proc/net/tcp") as f:
        return any(re.match(r" *\d+: [0-9A-F]{8}:%04X \S+ 0A " % PORT, line) for line in f)


class Server:
    def __init__(self, folder):
        self.folder, self.process, self.connection, self.log = folder, None, None, None
        self.said, self.asked = os.path.join(folder, "standard-error"), 0

    def stop(self, why):
        raise SystemExit(f"{why}: see {self.said}")

    def start(self):
        self.log = open(self.said, "ab")
        self.from_here = self.log.tell()
        self.process = subprocess.Popen([PROGRAM, "serve", "--connections", "65535"], cwd=self.folder,
                                        stdin=subprocess.DEVNULL, stdout=subprocess.DEVNULL, stderr=self.log)

    def kill(self):
        if self.process:
            self.process.kill()

    def end(self):
        """After a kill: waits for its end, so that the next one finds the port and the database."""
        self.hang_up()
        try:
            status = self.process.wait(60)
        except subprocess.TimeoutExpired:
            self.stop("a connection was lost, or not answered, and the server lives")
        self.log.close()
        if status != -9:
            self.stop(f"the server ended by itself, with {status}")

    def hang_up(self):
        if self.connection:
            self.connection.close()
        self.connection = None

    def listens(self):
        """Whether it says so: what answers at the port might be another's."""
        with open(self.said, "rb") as f:
            f.seek(self.from_here)
            return b"listening on" in f.read()

    def connect(self):
        for _ in range(12000):
            if self.listens():
                return socket.create_connection(("127.0.0.1", PORT), 60)
            if self.process.poll() is not None:
                raise Lost
            time.sleep(0.01)
        self.stop("the server does not listen")

    def ask(self, data):
        """The status and the body of the reply."""
        if time.monotonic() - self.asked > SILENCE:
            self.hang_up()
        try:
            self.connection = self.connection or self.connect()
            self.connection.sendall(data)
            found = self.reply()
            self.asked = time.monotonic()
            return found
        except OSError:
            self.hang_up()
            raise Lost

    def reply(self):
        held = b""
        while b"\r\n\r\n" not in held:
            held += self.more()
        head, _, body = held.partition(b"\r\n\r\n")
        length = int(head.lower().split(b"content-length:")[1].split(b"\r\n")[0])
        while len(body) < length:
            body += self.more()
        return int(head.split(b" ")[1]), body

    def more(self):
        piece = self.connection.recv(65536)
        if not piece:
            raise OSError
        return piece


# ---- The comparison


class Trial:
    def __init__(self, server, seed):
        self.server, self.random = server, random.Random(seed)
        self.world, self.sent, self.pending, self.repeats = World(Library(), Calls(), Vault()), 0, None, 0
        self.accepted = []  # the newest changes that were, and some of the others

    def wanted(self, data):
        """What the model replies, which goes on by it."""
        head = parse_head(data)
        return self.world.reply(asked_of(head, data[head.length:]))[:2]

    def differs(self, what, found, wanted):
        raise SystemExit(f"{what}\nfound  {found}\nwanted {wanted}\nthe library is in {self.server.folder}")

    def step(self):
        """Sends one change, or again the one that was not answered."""
        if self.pending is None:
            self.sent += 1
            self.pending = change(self.random, self.world.library, f"t-{self.sent}")
        found = self.server.ask(self.pending)
        if found[0] in FAULTS:
            raise SystemExit(f"a fault: {found}; see {self.server.folder}/standard-error")
        wanted = self.wanted(self.pending)
        if found != wanted:
            self.differs(self.pending[:200], found, wanted)
        if found[0] in (200, 201):
            self.accepted.append(self.pending)
            if len(self.accepted) > 60:
                self.accepted.pop(self.random.randrange(50))
        self.pending = None

    def compare(self):
        """Each recording, each album and each file are as the model has them, but for the change that was lost."""
        if self.pending is not None:
            self.repeats += 1
            self.step()
        library = self.world.library
        questions = ([request("GET", f"/recordings/{id}") for id in range(1, library.next_recording + 1)]
                     + [request("GET", f"/albums/{id}") for id in range(1, library.next_album + 1)])
        # the newest changes again, and some of any age
        repeats = self.accepted[-3:] + self.random.sample(self.accepted, min(5, len(self.accepted)))
        for data in questions + repeats:
            found, wanted = self.server.ask(data), self.wanted(data)
            if found != wanted:
                self.differs(data[:200], found, wanted)
        for r in library.recordings.values():
            with open(os.path.join(self.server.folder, "takes", f"{r.take}.bin"), "rb") as f:
                found = hashlib.md5(f.read()).hexdigest()
            if found != r.digest:
                self.differs(f"take {r.take}", found, r.digest)
        parts = [name for name in self.files() if name.endswith(".part")]
        if len(parts) > 1:
            self.differs("files that are not whole", parts, "one at most")

    def files(self):
        """The names of the files of takes."""
        takes = os.path.join(self.server.folder, "takes")
        return os.listdir(takes) if os.path.isdir(takes) else []

    def round(self):
        """A start, a comparison and changes, until a kill at a random moment: of the start in one of four rounds, else
        of the changes."""
        self.server.start()
        timer = threading.Timer(self.random.choice([0.02, 0.2, 1, 3]) * self.random.random() + 0.01, self.server.kill)
        at_once = self.random.random() < 0.25
        try:
            if at_once:
                timer.start()
            self.compare()
            if not at_once:
                timer.start()
            while True:
                self.step()
        except Lost:
            pass
        timer.cancel()
        self.server.end()


def main():
    rounds = int(sys.argv[1]) if len(sys.argv) > 1 else 200
    seed = int(sys.argv[2]) if len(sys.argv) > 2 else random.randrange(1 << 32)
    if is_held():
        raise SystemExit(f"port {PORT} is held by another program. In a network of its own this has a port of its own:\n"
                         f"    unshare -rn sh -c 'ip link set lo up; exec {sys.argv[0]}'")
    folder = tempfile.mkdtemp(prefix="kill-and-restart-")
    # words that are no command, which build the program where it is not built
    subprocess.run([PROGRAM], cwd=folder, stdin=subprocess.DEVNULL, stdout=subprocess.DEVNULL)
    print(f"{rounds} rounds, seed {seed}, in {folder}", flush=True)
    # what the model measures of a file it keeps: so no round waits for that
    for file in FILES:
        Library().decide(("import", None, b"", file))
    trial = Trial(Server(folder), seed)
    atexit.register(trial.server.kill)
    for number in range(1, rounds + 1):
        trial.round()
        if number % 20 == 0:
            print(f"round {number}: {trial.sent} changes, {len(trial.world.library.recordings)} recordings", flush=True)
    trial.server.start()
    trial.compare()
    trial.server.kill()
    trial.server.end()
    named = {f"{r.take}.bin" for r in trial.world.library.recordings.values()}
    left = [name for name in trial.files() if name not in named]
    print(f"no change was lost or done twice: {trial.sent} changes, {trial.repeats} of them sent again after a kill; "
          f"{len(left)} files of takes that no row names")
    shutil.rmtree(folder)


if __name__ == "__main__":
    main()
