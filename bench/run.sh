#!/bin/bash
# Times the proved meters, and what decodes FLAC, beside plain C of the same definitions (gcc -O2) on the
# same samples, compares their checksums, and prints the median of the ratios of their processor times.
#
# With the path of another program, as it was built before a change, it times an import by both.
#
# usage: bench/run.sh [RUNS [BEFORE]]
# It is run by hand on a machine that does nothing else; it tests nothing.
set -eu
cd "$(dirname "$0")/.."
runs=${1:-9}
before=${2:-}
work=$(mktemp -d)
trap 'rm -rf "$work"' EXIT

(cd crates/bench_meters && rt run -- filter 1 >"$work/log" 2>&1) || { cat "$work/log"; exit 1; }
(cd crates/bench_flac && rt run -- fixed 1 >"$work/log" 2>&1) || { cat "$work/log"; exit 1; }
meters=crates/bench_meters/out/bench_meters
flac=crates/bench_flac/out/bench_flac
gcc -O2 -DFAST -o "$work/filter_fast" bench/filter.c
gcc -O2 -o "$work/filter_plain" bench/filter.c
gcc -O2 -o "$work/peak" bench/peak.c
gcc -O2 -o "$work/predict" bench/predict.c
gcc -O2 -o "$work/fill" bench/fill.c
gcc -O2 -o "$work/bits" bench/bits.c

# seconds of processor time, and what the program printed in the file `sum`
timed() {
    local TIMEFORMAT=%3U
    { time "$@" >"$work/sum"; } 2>&1
}

# proved program, what it does, rounds, values in a round, C program, what that is
compare() {
    local proved=$1 kind=$2 rounds=$3 round=$4 plain=$5 name=$6 run ours theirs sum
    : >"$work/ratios"
    for ((run = 0; run < runs; run++)); do
        ours=$(timed "$proved" "$kind" "$rounds")
        sum=$(cat "$work/sum")
        theirs=$(timed "$plain" "$kind" "$rounds")
        if [ "$sum" != "$(cat "$work/sum")" ]; then
            echo "$kind: the checksums differ" >&2
            exit 1
        fi
        awk -v ours="$ours" -v theirs="$theirs" -v samples=$((rounds * round)) \
            'BEGIN { printf "%.3f %.1f %.1f\n", ours / theirs, ours / samples * 1e9, theirs / samples * 1e9 }' >>"$work/ratios"
    done
    sort -n "$work/ratios" | awk -v name="$kind beside $name" '
        { ratio[NR] = $1; ours[NR] = $2; theirs[NR] = $3 }
        END { m = int((NR + 1) / 2); print name ": " ratio[m] " times its time (" ours[m] " and " theirs[m] " ns a sample, from " ratio[1] " to " ratio[NR] " in " NR " runs)" }'
}

compare "$meters" filter 1000 48000 "$work/filter_fast" "C with the same floor division"
compare "$meters" filter 200 48000 "$work/filter_plain" "C with the division of 128 bits"
compare "$meters" peak 200 48000 "$work/peak" "C"
compare "$meters" fading 200 48000 "$work/peak" "C (the peak of noise that fades four times a second)"
compare "$meters" fill16 20000 48000 "$work/fill" "C (samples of 16 bits out of a wave of two channels)"
compare "$meters" fill24 20000 48000 "$work/fill" "C (samples of 24 bits out of a wave of two channels)"
compare "$flac" fixed 40000 4096 "$work/predict" "C"
compare "$flac" linear8 20000 4096 "$work/predict" "C"
compare "$flac" linear12 20000 4096 "$work/predict" "C"
compare "$flac" linear32 10000 4096 "$work/predict" "C"
compare "$flac" rice4 5000 80000 "$work/bits" "C"
compare "$flac" rice10 10000 40000 "$work/bits" "C"
compare "$flac" crc16 50000 65536 "$work/bits" "C"

# ---- ten minutes of stereo, read whole, with both checks and the MD5, beside `flac -t`; and filled from

# the median of the times of some runs
median_time() {
    local run
    for ((run = 0; run < (runs + 1) / 2; run++)); do timed "$@"; done | sort -n | awk '{ t[NR] = $1 } END { print t[int((NR + 1) / 2)] }'
}

if command -v flac >/dev/null; then
    gcc -O2 -o "$work/music" bench/music.c -lm
    for bits in 16 24; do
        "$work/music" $bits 600 >"$work/music.raw"
        for level in 5 8; do
            file=$work/music.flac
            flac -s -f -$level --force-raw-format --bps=$bits --channels=2 --sample-rate=48000 --endian=little \
                --sign=signed -o "$file" "$work/music.raw"
            read=$(median_time "$flac" read "$file")
            test=$(median_time flac -s -t "$file")
            fill=$(median_time "$flac" fill "$file")
            awk -v name="$bits bits, level $level" -v read="$read" -v test="$test" -v fill="$fill" 'BEGIN {
                samples = 600 * 48000 * 2 / 1e9
                printf "a whole read of %s beside flac -t: %.2f times its time (%.1f and %.1f ns a sample); ", name, read / test, read / samples, test / samples
                printf "filling a channel in pieces of 4,096: %.2f times a whole read\n", (fill - read) / read / 2
            }'
        done
    done
else
    echo 'a whole read of FLAC: skipped, flac is not here'
fi

# ---- a session of one import of 1 MiB: a wave of noise, two channels of 16 bits

# a number as four bytes, the lowest first
number() {
    local i
    for ((i = 0; i < 32; i += 8)); do printf "\\x$(printf %02x $(($1 >> i & 255)))"; done
}

data=1048000
{
    printf 'POST /recordings HTTP/1.1\r\nRequest-Token: a\r\nContent-Length: %d\r\n\r\nRIFF' $((44 + data))
    number $((36 + data))
    printf 'WAVEfmt \x10\0\0\0\x01\0\x02\0\x80\xbb\0\0\0\xee\x02\0\x04\0\x10\0data'
    number $data
    head -c $data /dev/urandom
} >"$work/import.http"

# the same session, 20 times, each over a library of its own
imports() {
    local run
    for ((run = 0; run < 20; run++)); do
        rm -rf "$work/library"
        mkdir "$work/library"
        (cd "$work/library" && "$1" session) <"$work/import.http"
    done
}

# what the program is, and the program
import_time() {
    local seconds
    imports "$2" >"$work/reply"
    if [ "$(head -c 12 "$work/reply")" != 'HTTP/1.1 201' ]; then
        echo "an import by $2 is not accepted" >&2
        exit 1
    fi
    seconds=$(timed imports "$2")
    awk -v name="$1" -v seconds="$seconds" \
        'BEGIN { printf "an import of 1 MiB, %s: %.1f ms\n", name, seconds / 20 * 1000 }'
}

if [ -n "$before" ]; then import_time 'by the program before' "$before"; fi
import_time 'by this program' "$PWD/loudlib"
