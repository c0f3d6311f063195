"""Waves and FLAC files: the sound that one reads as, or the rule that it breaks first and where.

Of FLAC only what the cases hold: constant and verbatim subframes, blocks of comments.
"""
import hashlib

# ---- Waves (RIFF; rule and place as docs/FORMATS.md names them)

PCM = bytes.fromhex("0100000000001000800000aa00389b71")


def le(b):
    return int.from_bytes(b, "little")


def walk(b):
    """The chunks up to the first that passes the end, as (name, head, length), and that one's head or None."""
    chunks, at = [], 12
    while at < len(b):
        if at + 8 > len(b) or at + 8 + le(b[at + 4:at + 8]) > len(b):
            return chunks, at
        n = le(b[at + 4:at + 8])
        chunks.append((b[at:at + 4], at, n))
        at += 8 + n + n % 2
    return chunks, None


def read_wave(b):
    """('broken', rule, place), or ('sound', depth, frames, lists)."""
    if len(b) < 12 or b[:4] != b"RIFF":
        return "broken", "V1", 0
    if b[8:12] != b"WAVE":
        return "broken", "V2", 8
    if le(b[4:8]) + 8 not in (len(b) - 1, len(b), len(b) + 1):
        return "broken", "V3", 4
    chunks, cut = walk(b)
    if cut is not None:
        return "broken", "V4", cut
    found = {}
    for name, head, n in chunks:
        if name in (b"fmt ", b"data", b"bext"):
            if name in found:
                return "broken", "V5", head
            found[name] = (head, n)
    if b"fmt " not in found:
        return "broken", "V6", len(b)
    head, n = found[b"fmt "]
    at = head + 8
    tag = le(b[at:at + 2])
    if n < 16 or (tag == 0xFFFE and n < 40):
        return "broken", "V7", at
    if tag not in (1, 0xFFFE) or (tag == 0xFFFE and b[at + 24:at + 40] != PCM):
        return "broken", "V8", at
    channels, rate, align, depth = le(b[at + 2:at + 4]), le(b[at + 4:at + 8]), le(b[at + 12:at + 14]), le(b[at + 14:at + 16])
    if not 1 <= channels <= 6:
        return "broken", "V9", at + 2
    if rate != 48000:
        return "broken", "V10", at + 4
    if depth not in (16, 24):
        return "broken", "V11", at + 14
    if align != channels * depth // 8:
        return "broken", "V12", at + 12
    if b"data" not in found:
        return "broken", "V13", len(b)
    head, n = found[b"data"]
    if n % align:
        return "broken", "V14", head
    if b"bext" in found and found[b"bext"][1] < 602:
        return "broken", "V15", found[b"bext"][0]
    size, data = depth // 8, b[head + 8:head + 8 + n]
    values = [int.from_bytes(data[i:i + size], "little", signed=True) for i in range(0, n, size)]
    return "sound", depth, n // align, [values[c::channels] for c in range(channels)]


# ---- FLAC files (RFC 9639), of constant and verbatim subframes, at the rules of the cases

SIZES = {6: 8, 7: 16}
DEPTHS = {1: 8, 2: 12, 4: 16, 5: 20, 6: 24}


def crc(width, polynomial, b):
    top, value = 1 << width - 1, 0
    for byte in b:
        value ^= byte << width - 8
        for _ in range(8):
            value = (value << 1 ^ polynomial if value & top else value << 1) & (1 << width) - 1
    return value


def comments_fault(b):
    """The rule that a block's content breaks and its place there, or None."""
    if len(b) < 4 or 4 + le(b[:4]) > len(b):
        return "C1", 0
    at = 4 + le(b[:4])
    if at + 4 > len(b):
        return "C2", at
    count, at = le(b[at:at + 4]), at + 4
    for _ in range(count):
        if at + 4 > len(b) or at + 4 + le(b[at:at + 4]) > len(b):
            return "C2", at
        at += 4 + le(b[at:at + 4])
    return None if at == len(b) else ("C3", at)


class Bits:
    def __init__(self, b, at):
        self.b, self.at = b, at * 8

    def take(self, n):
        if self.at + n > len(self.b) * 8:
            raise EOFError
        value = int.from_bytes(self.b, "big") >> len(self.b) * 8 - self.at - n & (1 << n) - 1
        self.at += n
        return value

    def signed(self, n):
        value = self.take(n)
        return value - (1 << n) if value >> n - 1 else value


def read_frame(b, start, channels, depth):
    """('broken', rule, place), or (the channels' samples, the frame's end)."""
    bits = Bits(b, start)
    try:
        assert bits.take(16) == 0xFFF8, "a frame of a fixed block size"
        size_code, rate_code, channel_code, depth_code = bits.take(4), bits.take(4), bits.take(4), bits.take(3)
        assert rate_code in (0, 10) and channel_code == channels - 1 and not bits.take(1), "another header"
        assert DEPTHS.get(depth_code, depth) == depth and bits.take(8) < 128, "another header"
        size = bits.take(SIZES[size_code]) + 1
        end = bits.at // 8
        if bits.take(8) != crc(8, 0x07, b[start:end]):
            return "broken", "F19", start
        lists = []
        for _ in range(channels):
            kind = bits.take(8) >> 1
            assert kind in (0, 1), "another subframe"
            lists.append([bits.signed(depth) for _ in range(size)] if kind else [bits.signed(depth)] * size)
        assert not bits.take(-bits.at % 8), "other bits before the end"
        end = bits.at // 8
        if bits.take(16) != crc(16, 0x8005, b[start:end]):
            return "broken", "F28", start
        return lists, end + 2
    except EOFError:
        return "broken", "F29", start


def read_flac(b):
    """('broken', rule, place), or ('sound', depth, frames, lists)."""
    at, last, info, fault = 4, False, None, None
    while not last:
        if at + 4 > len(b) or at + 4 + int.from_bytes(b[at + 1:at + 4], "big") > len(b):
            return "broken", "F2", at
        last, kind, n = b[at] >> 7, b[at] & 127, int.from_bytes(b[at + 1:at + 4], "big")
        content = b[at + 4:at + 4 + n]
        if info is None:
            assert kind == 0 and n == 34, "STREAMINFO is the first"
            info = content
        elif kind == 4 and comments_fault(content):
            rule, place = comments_fault(content)
            fault = "broken", rule, at + 4 + place
        at += 4 + n
    said = int.from_bytes(info[10:18], "big")
    rate, channels, depth, total = said >> 44, (said >> 41 & 7) + 1, (said >> 36 & 31) + 1, said & (1 << 36) - 1
    assert rate == 48000 and channels <= 6 and 4 <= depth <= 24, "another STREAMINFO"
    lists = [[] for _ in range(channels)]
    while at < len(b):
        frame = read_frame(b, at, channels, depth)
        if frame[0] == "broken":
            return frame
        lists, at = [xs + ys for xs, ys in zip(lists, frame[0])], frame[1]
    if total not in (0, len(lists[0])):
        return "broken", "F30", 21
    size = (depth + 7) // 8
    spelled = b"".join(v.to_bytes(size, "little", signed=True) for row in zip(*lists) for v in row)
    if any(info[18:]) and info[18:] != hashlib.md5(spelled).digest():
        return "broken", "F31", 26
    return fault or ("sound", depth, len(lists[0]), lists)


# ---- Files of any kind

READERS = {b"RIFF": ("wave", read_wave), b"fLaC": ("flac", read_flac)}


def read_file(b):
    """The kind of the file, and what it reads as."""
    kind, read = READERS.get(b[:4], (None, lambda b: ("broken", "K1", 0)))
    return kind, read(b)
