"""Levels, as docs/DEFINITIONS.md defines them (BS.1770-4, Tech 3341, Tech 3342, in whole numbers)."""
import bisect
import hashlib

ONE = 10 ** 14
SECTIONS = [
    (153512485958697, -269169618940638, 119839281085285, -169065929318241, 73248077421585),
    (ONE, -2 * ONE, ONE, -199004745483398, 99007225036621),
]
WEIGHTS = {1: [100], 2: [100] * 2, 3: [100] * 3, 4: [100, 100, 141, 141],
           5: [100, 100, 100, 141, 141], 6: [100, 100, 100, 0, 141, 141]}
H = 2 ** 54 * 11724653
PHASES = [
    [14, 90, -161, 272, -487, 1125, 7964, -838, 390, -218, 122, -68],
    [-239, 240, -424, 730, -1364, 3810, 6388, -1641, 832, -477, 271, -155],
]
PHASES += [PHASES[1][::-1], PHASES[0][::-1]]


def clamp(size, value):
    return max(-size, min(size, value))


def section(row, xs):
    b0, b1, b2, a1, a2 = row
    x1 = x2 = u1 = u2 = 0
    out = []
    for x in xs:
        u = clamp(2 ** 50, (b0 * x + b1 * x1 + b2 * x2 - a1 * u1 - a2 * u2 + 5 * 10 ** 13) // ONE)
        out.append(u)
        x1, x2, u1, u2 = x, x1, u, u1
    return out


def weighted(depth, samples):
    xs = [s * 2 ** (24 - depth) * 2 ** 16 for s in samples]
    ys = section(SECTIONS[1], section(SECTIONS[0], xs))
    return [clamp(2 ** 30, (y + 2 ** 11) // 2 ** 12) for y in ys]


def energies(depth, frames, lists):
    sums = [0] * (frames // 4800)
    for weight, samples in zip(WEIGHTS[len(lists)], lists):
        values = weighted(depth, samples)
        for j in range(len(sums)):
            sums[j] += weight * sum(v * v for v in values[4800 * j:4800 * j + 4800])
    return sums


def root(n, k):
    low, high = 0, 1
    while high ** k <= n:
        high *= 2
    while high - low > 1:
        mid = (low + high) // 2
        low, high = (mid, high) if mid ** k <= n else (low, mid)
    return low


C = [root(10 ** (90 + i), 10) for i in range(10)]
T = [root(10 ** (900 + i), 100) for i in range(10)]
F = [root(10 ** (18000 + j), 2000) for j in range(20)]
M = [C[k // 200] * T[k // 20 % 10] // 10 ** 9 * F[k % 20] // 10 ** 9 for k in range(2000)]


def level(a, b):
    """How many two-thousandths of a power of ten a / b holds: the greatest whose power is not above it."""
    q = 0
    while 10 ** (q + 1) * b <= a:
        q += 1
    while a * 10 ** -min(q, 0) < b * 10 ** max(q, 0):
        q -= 1
    up, down = 10 ** max(q, 0), 10 ** max(-q, 0)
    return 2000 * q + bisect.bisect_right(M, a * down * 10 ** 9 // (b * up)) - 1


def hundredths(v):
    # a level counts steps of a two-thousandth of a power of ten, 0.005 dB; half of one goes up
    return (v + 1) // 2


def runs(values, size):
    return [sum(values[j:j + size]) for j in range(len(values) - size + 1)]


def block_level(z):
    return hundredths(level(125 * z, 24 * H)) if z else None


def window_level(z):
    return hundredths(level(25 * z, 36 * H)) if z else None


def loudness_of(blocks):
    first = [z for z in blocks if 125 * 10 ** 7 * z > 24 * H]
    if not first:
        return None
    both = [z for z in first if 10 * len(first) * z > sum(first)]
    return block_level(sum(both) // len(both)) if both else None


def range_of(windows):
    first = [z for z in windows if 125 * 10 ** 7 * z >= 180 * H]
    both = sorted(z for z in first if 100 * len(first) * z >= sum(first))
    if not both:
        return None
    at = lambda p: both[(2 * (len(both) - 1) * p + 100) // 200]
    return hundredths(level(at(95), at(10)))


def peak_of(depth, lists):
    peak = 0
    for samples in lists:
        padded = [0] * 11 + [x * 2 ** (24 - depth) for x in samples] + [0] * 11
        taken = [padded[11 - i:len(padded) - i] for i in range(12)]  # the sample so many places before each place
        peak = max([peak] + [8192 * abs(x) for x in padded])
        for h in PHASES if samples else []:
            peak = max(peak, max(abs(sum(map(int.__mul__, h, row))) for row in zip(*taken)))
    return peak


class Measured:
    """What is measured of a sound: its frames, the energies of its segments, and its peak."""

    def __init__(self, frames, energies, peak):
        self.frames, self.energies, self.peak = frames, energies, peak
        self.blocks, self.windows = runs(energies, 4), runs(energies, 30)


KEPT = {}


def measure(depth, frames, lists):
    key = hashlib.md5(repr((depth, frames, lists)).encode()).digest()
    if key not in KEPT:
        KEPT[key] = Measured(frames, energies(depth, frames, lists), peak_of(depth, lists))
    return KEPT[key]


def summary_of(members):
    """The levels of sounds taken together: no block and no window lies across two of them."""
    blocks = [z for m in members for z in m.blocks]
    windows = [z for m in members for z in m.windows]
    peak = max((m.peak for m in members), default=0)
    loudness = loudness_of(blocks)
    return dict(
        frames=sum(m.frames for m in members), loudness=loudness, range=range_of(windows),
        momentary=block_level(max(blocks, default=0)), short_term=window_level(max(windows, default=0)),
        true_peak=hundredths(level(peak * peak, 2 ** 72)) if peak else None, peak=peak,
        gain=None if loudness is None else -1800 - loudness)
