"""Files as docs/CASES.md writes them, line by line."""
from model.formats import PCM


def fmt(extensible, channels, depth):
    align = channels * depth // 8
    head = b"".join([(0xFFFE if extensible else 1).to_bytes(2, "little"), channels.to_bytes(2, "little"),
                     (48000).to_bytes(4, "little"), (48000 * align).to_bytes(4, "little"),
                     align.to_bytes(2, "little"), depth.to_bytes(2, "little")])
    return head + ((22).to_bytes(2, "little") + depth.to_bytes(2, "little") + bytes(4) + PCM if extensible else b"")


class Builder:
    """A file as it grows: bytes in front, then chunks."""

    def __init__(self):
        self.front, self.chunks, self.depth = b"", [], 16

    def add(self, piece):
        if self.chunks:
            self.chunks[-1][1].append(piece)
        else:
            self.front += piece

    def begin(self, name):
        self.chunks.append(((name + "    ")[:4].encode(), []))

    def put(self, values):
        size = self.depth // 8
        self.add(b"".join(int(v).to_bytes(size, "little", signed=True) for v in values))

    def line(self, word, rest):
        if word in ("wave", "format", "extensible"):
            channels, self.depth = map(int, rest)
            self.begin("fmt ")
            self.add(fmt(word == "extensible", channels, self.depth))
            if word == "wave":
                self.begin("data")
        elif word == "chunk":
            self.begin(rest[0])
        elif word == "samples":
            self.put(rest)
        elif word == "stretch":
            tones = [tuple(map(int, t.split(":"))) for t in rest[1:]]
            self.put(v if not half or t // half % 2 == 0 else -v for t in range(int(rest[0])) for half, v in tones)
        elif word == "hex":
            self.add(bytes.fromhex("".join(rest)))
        elif word == "zeros":
            self.add(bytes(int(rest[0])))
        else:
            raise ValueError(word)

    def file(self, lines):
        """The bytes of the file that the lines make."""
        for line in lines:
            word, *rest = line.split(" ")
            self.line(word, rest)
        return self.bytes()

    def bytes(self):
        body = self.front
        for name, pieces in self.chunks:
            content = b"".join(pieces)
            body += name + len(content).to_bytes(4, "little") + content + bytes(len(content) % 2)
        return b"RIFF" + (len(body) + 4).to_bytes(4, "little") + b"WAVE" + body if self.chunks else body
