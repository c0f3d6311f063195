#!/bin/bash
# Reads files that the ordinary FLAC encoder made, and compares the MD5 of their samples with that of
# the ordinary decoder's. It imports each into the program, and compares the reply with that to the same
# sound as a wave. Then it damages some, and looks that each is refused, or read as the same sound, in
# time. Where `flac`, `metaflac` or `python3` is not here, nothing is tried, and it says so.
#
# usage: scripts/ordinary-flacs.sh
set -eu
cd "$(dirname "$0")/.."
for tool in flac metaflac python3; do
    command -v $tool >/dev/null || { echo "skipped: $tool is not here"; exit 0; }
done
work=$(mktemp -d)
trap 'rm -rf "$work"' EXIT
(cd crates/bench_flac && rt run -- fixed 1 >"$work/log" 2>&1) || { cat "$work/log"; exit 1; }
reader=$PWD/crates/bench_flac/out/bench_flac
program=$PWD/loudlib
cd "$work"

# ---- waves of 1 to 6 channels of 8, 12, 16, 20 and 24 bits, and a picture of one pixel

python3 - <<'PYTHON'
import math, random, struct, zlib

MASKS = {1: 0x4, 2: 0x3, 3: 0x7, 4: 0x33, 5: 0x607, 6: 0x60F}
PCM = bytes.fromhex('0100000000001000800000aa00389b71')

def write_wave(path, bits, frames):
    width, channels = (bits + 7) // 8, len(frames[0])
    shift = width * 8 - bits
    data = bytearray()
    for frame in frames:
        for sample in frame:
            value = (sample << shift) + (128 if width == 1 else 0)
            data += (value & ((1 << 8 * width) - 1)).to_bytes(width, 'little')
    form = struct.pack('<HHIIHHHHI', 0xFFFE, channels, 48000, 48000 * channels * width,
                       channels * width, width * 8, 22, bits, MASKS[channels]) + PCM
    body = (b'WAVEfmt ' + struct.pack('<I', len(form)) + form
            + b'data' + struct.pack('<I', len(data)) + bytes(data) + bytes(len(data) % 2))
    with open(path, 'wb') as file:
        file.write(b'RIFF' + struct.pack('<I', len(body)) + body)

def sound(bits, channels):
    # a tone that fades, the same in all channels but for a little, silence, full noise, and a square
    full = (1 << bits - 1) - 1
    random.seed(bits * 10 + channels)
    fit = lambda x: max(-full - 1, min(full, int(x)))
    for t in range(9000):
        if t < 5000:
            tone = full * 0.8 * math.exp(-t / 3000) * math.sin(t * 0.02)
            yield [fit(tone / (c * 0.1 + 1) + random.gauss(0, full / 300)) for c in range(channels)]
        elif t < 6000:
            yield [0] * channels
        elif t < 7000:
            yield [random.randint(-full - 1, full) for c in range(channels)]
        else:
            yield [full if (t // 50 + c) % 2 else -full - 1 for c in range(channels)]

for bits in (8, 12, 16, 20, 24):
    for channels in range(1, 7):
        write_wave(f'{bits}_{channels}.wav', bits, list(sound(bits, channels)))

def part(kind, content):
    return struct.pack('>I', len(content)) + kind + content + struct.pack('>I', zlib.crc32(kind + content))

with open('dot.png', 'wb') as file:
    file.write(b'\x89PNG\r\n\x1a\n' + part(b'IHDR', struct.pack('>IIBBBBB', 1, 1, 8, 0, 0, 0, 0))
               + part(b'IDAT', zlib.compress(b'\0\0')) + part(b'IEND', b''))
PYTHON

# ---- what the ordinary decoder gives, and what the reader gives

agreed=0

# the MD5 of the samples of `file.flac` by the ordinary decoder, of a file of so many bits
ordinary() {
    flac -s -t file.flac 2>>log || { cat log >&2; exit 1; }
    case $1 in
    8 | 16 | 24)
        flac -s -d -c --force-raw-format --endian=little --sign=signed file.flac 2>>log | md5sum | cut -d' ' -f1
        ;;
    # which it writes to no raw file; it has compared this one with the samples
    *) metaflac --show-md5sum file.flac ;;
    esac
}

# the body of the reply to the import of a file, as the first of a library
reply() {
    rm -rf library
    mkdir library
    { printf 'POST /recordings HTTP/1.1\r\nRequest-Token: a\r\nContent-Length: %d\r\n\r\n' "$(stat -c %s "$1")"; cat "$1"; } |
        (cd library && "$program" session) 2>>log | tail -n 1
}

# What is wanted of the import of a wave's sound as FLAC: the reply to the wave, but for the kind, and the
# bits of a sample where the wave pads them to whole bytes. The program takes no wave of 8 bits.
reply_wanted() {
    local wave=$1
    [ -f "$wave.reply" ] ||
        reply "$wave.wav" | sed "s/\"depth\":[0-9]*/\"depth\":${wave%_*}/; s/\"wave\"/\"flac\"/" >"$wave.reply"
    cat "$wave.reply"
}

# a wave of which `file.flac` has the sound
check_import() {
    local wave=$1 wanted got
    got=$(reply file.flac)
    case $wave in
    8_*)
        case $got in
        "{\"album\":null,\"channels\":${wave#*_},\"depth\":8,\"frames\":9000,"*'"kind":"flac"'*) wanted=$got ;;
        *) wanted="channels ${wave#*_}, depth 8, frames 9000, kind flac" ;;
        esac
        ;;
    *) wanted=$(reply_wanted "$wave") ;;
    esac
    if [ "$got" != "$wanted" ]; then
        echo "$wave: wanted the reply $wanted, got $got" >&2
        exit 1
    fi
}

# a wave, how to encode it
check() {
    local wave=$1 wanted got
    shift
    flac -s -f --lax "$@" -o file.flac "$wave.wav" 2>>log || { cat log >&2; exit 1; }
    wanted=$(ordinary "${wave%_*}")
    got=$("$reader" samples file.flac)
    if [ "$got" != "$wanted" ]; then
        echo "$wave $*: wanted $wanted, got $got" >&2
        exit 1
    fi
    check_import "$wave"
    agreed=$((agreed + 1))
}

for bits in 8 12 16 20 24; do
    for channels in 1 2 3 4 5 6; do
        for level in 0 1 2 3 4 5 6 7 8; do check "${bits}_$channels" -$level; done
    done
done
for wave in 8_1 16_2 24_2; do
    check $wave --no-padding
    check $wave --padding=100000
    check $wave -S 100x
    check $wave --no-seektable
    check $wave --picture='3|image/png|||dot.png'
    check $wave --no-md5-sum
    check $wave -T ARTIST=someone -T TITLE=something
    check $wave -b 16
    check $wave -b 65535
    check $wave -l 32 -q 15 -r 0,15 -e
done
echo "$agreed files: their samples are those of the ordinary decoder, and their levels those of the wave"

# ---- damaged files: each is refused by a rule at a place, or read as the same sound, within 20 seconds

damaged=0
refused=0
for wave in 8_1 12_3 16_2 24_6; do
    flac -s -f --lax -5 --picture='3|image/png|||dot.png' -o whole.flac $wave.wav
    sound=$("$reader" samples whole.flac)
    mkdir damaged
    python3 - <<'PYTHON'
import random
whole = open('whole.flac', 'rb').read()
random.seed(len(whole))
for number in range(120):
    bytes_ = bytearray(whole)
    kind = number % 4
    if kind == 0:
        del bytes_[random.randrange(len(bytes_)):]
    for change in range(1 if kind < 3 else 30):
        # near the start, where each bit counts, or anywhere
        place = random.randrange(min(len(bytes_), 500) if kind == 1 else len(bytes_)) if bytes_ else 0
        if bytes_ and kind > 0:
            bytes_[place] ^= 1 << random.randrange(8)
    open(f'damaged/{number}.flac', 'wb').write(bytes_)
PYTHON
    for file in damaged/*.flac; do
        got=$(timeout 20 "$reader" samples "$file") || { echo "$wave, $file: ended by $?" >&2; exit 1; }
        case $got in
        F[0-9]*' at '[0-9]*) refused=$((refused + 1)) ;;
        "$sound") ;;
        *)
            echo "$wave, $file: $got" >&2
            exit 1
            ;;
        esac
        damaged=$((damaged + 1))
    done
    rm -r damaged
done
echo "$damaged damaged files: $refused refused, the others read as the same sound"
