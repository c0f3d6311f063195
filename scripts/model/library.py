"""The library: its state, the commands that change it, and what it answers (docs/HTTP.md)."""
import hashlib

from model.formats import read_file
from model.levels import measure, summary_of
from model.wire import END, error

MOST_MEMBERS = 256


class Recording:
    def __init__(self, id, album, name):
        self.id, self.album, self.name = id, album, name

    def hold(self, take, file, kind, sound):
        """The recording with this file under this take."""
        other = Recording(self.id, self.album, self.name)
        depth, frames, lists = sound
        other.take, other.kind, other.depth, other.channels = take, kind, depth, len(lists)
        other.measured = measure(depth, frames, lists)
        other.summary, other.digest = summary_of([other.measured]), hashlib.md5(file).hexdigest()
        return other

    def within(self, album):
        """The recording in that album, or in none."""
        other = Recording(self.id, album, self.name)
        other.__dict__.update({k: v for k, v in self.__dict__.items() if k != "album"})
        return other


def number(v):
    return "null" if v is None else str(v)


def text(b):
    return '"' + b.decode().replace("\\", "\\\\").replace('"', '\\"') + '"'


def peak_text(p):
    n = (p * 10 ** 6 + 2 ** 36 - 1) // 2 ** 36
    return f'"{n // 10 ** 6}.{n % 10 ** 6:06d}"'


def json_of(values):
    """An object of these members, in the order of their keys."""
    return ("{" + ",".join(f'"{k}":{values[k]}' for k in sorted(values)) + "}").encode()


def levels_of(s):
    return dict(gain=number(s["gain"]), loudness=number(s["loudness"]), momentary=number(s["momentary"]),
                peak=peak_text(s["peak"]), range=number(s["range"]), short=number(s["short_term"]),
                true_peak=number(s["true_peak"]))


class Library:
    def __init__(self):
        self.next_album = self.next_recording = self.next_take = 1
        self.names, self.summaries, self.recordings, self.replies = {}, {}, {}, {}

    # ---- what is answered

    def members(self, album):
        return [r for _, r in sorted(self.recordings.items()) if r.album == album]

    def recording_body(self, r):
        return json_of(dict(levels_of(r.summary), album=number(r.album), channels=r.channels, depth=r.depth,
                            frames=r.summary["frames"], id=r.id, kind=f'"{r.kind}"', name=text(r.name), take=r.take))

    def album_body(self, id):
        ids = ",".join(str(r.id) for r in self.members(id))
        return json_of(dict(levels_of(self.summaries[id]), id=id, name=text(self.names[id]), recordings=f"[{ids}]"))

    def answer(self, what, id):
        """The status and the body of the reply to a question."""
        if what == "recording":
            r = self.recordings.get(id)
            return (200, self.recording_body(r)) if r else (404, error("no-recording"))
        return (200, self.album_body(id)) if id in self.names else (404, error("no-album"))

    def seen(self, token, mark):
        """The reply to a change whose token is kept, or None."""
        if token not in self.replies:
            return None
        kept_mark, status, body = self.replies[token]
        return (status, body) if kept_mark == mark else (409, error("token-used"))

    # ---- what is decided: a refusal (status, body), or the change

    def decide(self, command):
        return getattr(self, command[0].replace("-", "_"))(*command[1:])

    def new_album(self, name):
        if self.next_album >= END:
            return 409, error("ids")
        return Change(201, album=self.next_album, name=name)

    def import_(self, album, name, file):
        if album is not None and album not in self.names:
            return 404, error("no-album")
        kind, found = read_file(file)
        if found[0] == "broken":
            return 422, broken_body(found)
        if album is not None and len(self.members(album)) >= MOST_MEMBERS:
            return 409, error("album-full")
        if self.next_recording >= END or self.next_take >= END:
            return 409, error("ids")
        r = Recording(self.next_recording, album, name).hold(self.next_take, file, kind, found[1:])
        return Change(201, recording=r, file=file)

    def retake(self, id, file):
        r = self.recordings.get(id)
        if r is None:
            return 404, error("no-recording")
        kind, found = read_file(file)
        if found[0] == "broken":
            return 422, broken_body(found)
        if self.next_take >= END:
            return 409, error("ids")
        return Change(200, recording=r.hold(self.next_take, file, kind, found[1:]), file=file, released=r.take)

    def group(self, id, album):
        r = self.recordings.get(id)
        if r is None:
            return 404, error("no-recording")
        if album is not None and album not in self.names:
            return 404, error("no-album")
        if album is not None and len([m for m in self.members(album) if m.id != id]) >= MOST_MEMBERS:
            return 409, error("album-full")
        return Change(200, recording=r.within(album))

    def remove(self, id):
        r = self.recordings.get(id)
        if r is None:
            return 404, error("no-recording")
        return Change(200, removed=id, released=r.take)

    def remove_album(self, id):
        if id not in self.names:
            return 404, error("no-album")
        if self.members(id):
            return 409, error("not-empty")
        return Change(200, removed_album=id)

    # ---- what a change makes

    def make(self, change, token, mark):
        """Makes the change and answers its reply, which is kept."""
        before = {id: [r.measured for r in self.members(id)] for id in self.names}
        body = self.made(change)
        for id in self.names:
            members = [r.measured for r in self.members(id)]
            if before.get(id) != members:
                self.summaries[id] = summary_of(members)
        self.replies[token] = mark, change.status, body() if callable(body) else body
        return self.replies[token][1:]

    def made(self, change):
        if change.album is not None:
            self.names[change.album], self.next_album = change.name, self.next_album + 1
            return lambda: self.album_body(change.album)
        if change.recording is not None:
            r = change.recording
            self.next_recording = max(self.next_recording, r.id + 1)
            self.next_take = max(self.next_take, r.take + 1)
            self.recordings[r.id] = r
            return self.recording_body(r)
        if change.removed is not None:
            del self.recordings[change.removed]
            return json_of(dict(removed=change.removed))
        del self.names[change.removed_album], self.summaries[change.removed_album]
        return json_of(dict(removed=change.removed_album))

    # ---- the rules of rows that the cases break

    def bad_row(self):
        """The table, the id and the rule of the first row that breaks a rule, or None."""
        if not all(1 <= n <= END for n in (self.next_album, self.next_recording, self.next_take)):
            return 1, 1, 1
        for id in sorted(self.names):
            if id >= self.next_album:
                return 2, id, 1
            if len(self.members(id)) > MOST_MEMBERS:
                return 2, id, 7
        for id, r in sorted(self.recordings.items()):
            if id >= self.next_recording or r.take >= self.next_take:
                return 3, id, 1
            if r.album is not None and r.album not in self.names:
                return 3, id, 2
        for id in sorted(self.names):
            if self.summaries[id] != summary_of([r.measured for r in self.members(id)]):
                return 2, id, 8
        return None


setattr(Library, "import", Library.import_)


class Change:
    """A change that was decided: the status of its reply, what it puts or takes out, the file that it brings, and the
    take that it releases."""

    def __init__(self, status, album=None, name=None, recording=None, removed=None, removed_album=None, file=None,
                 released=None):
        self.status, self.album, self.name, self.recording = status, album, name, recording
        self.removed, self.removed_album, self.file, self.released = removed, removed_album, file, released


def broken_body(found):
    return ('{"error":"format","place":%d,"rule":"%s"}' % (found[2], found[1])).encode()
