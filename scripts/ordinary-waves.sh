#!/bin/bash
# Sends waves that an ordinary tool made through the program, and looks at its replies: sox, ffmpeg, or
# both, whichever is there. Where neither is, nothing is tried, and it says so.
#
# usage: scripts/ordinary-waves.sh
set -eu
program=$(cd "$(dirname "$0")/.." && pwd -P)/loudlib
work=$(mktemp -d)
trap 'rm -rf "$work"' EXIT
tried=0

# a session of one import of the file, over a library of its own, and the body of its reply
import() {
    rm -rf "$work/library"
    mkdir "$work/library"
    { printf 'POST /recordings HTTP/1.1\r\nRequest-Token: a\r\nContent-Length: %d\r\n\r\n' "$(stat -c %s "$1")"; cat "$1"; } |
        (cd "$work/library" && "$program" session) | tail -n 1
}

# name, file, the start of the body that is wanted
check() {
    local name=$1 file=$2 want=$3 got
    got=$(import "$file")
    case $got in
    "$want"*) echo "$name: $got" ;;
    *)
        echo "$name: wanted $want, got $got" >&2
        exit 1
        ;;
    esac
    tried=$((tried + 1))
}

if command -v sox >/dev/null; then
    sox -n -r 48000 -b 16 -c 2 "$work/tone.wav" synth 1 sine 997 vol 0.5
    check 'sox, two channels of 16 bits' "$work/tone.wav" '{"album":null,"channels":2,"depth":16,"frames":48000,'
    sox -n -r 48000 -b 24 -c 6 "$work/noise.wav" synth 0.5 pinknoise vol 0.5
    check 'sox, six channels of 24 bits' "$work/noise.wav" '{"album":null,"channels":6,"depth":24,"frames":24000,'
    sox -n -r 44100 -b 16 -c 1 "$work/other.wav" synth 0.1 sine 997
    check 'sox, 44,100 Hz' "$work/other.wav" '{"error":"format","place":24,"rule":"V10"}'
fi
if command -v ffmpeg >/dev/null; then
    ffmpeg -v error -f lavfi -i 'sine=frequency=997:sample_rate=48000:duration=1' -c:a pcm_s16le "$work/sine.wav"
    check 'ffmpeg, one channel of 16 bits' "$work/sine.wav" '{"album":null,"channels":1,"depth":16,"frames":48000,'
    ffmpeg -v error -i "$work/sine.wav" -ac 2 -c:a pcm_s24le "$work/wide.wav"
    check 'ffmpeg, two channels of 24 bits' "$work/wide.wav" '{"album":null,"channels":2,"depth":24,"frames":48000,'
fi
if [ "$tried" = 0 ]; then
    echo 'skipped: neither sox nor ffmpeg is here'
fi
