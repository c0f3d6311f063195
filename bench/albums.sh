#!/bin/bash
# Times an album's answers beside plain C of the same definitions (gcc -O2) on the same energies, compares
# the sums of what both answered, and prints the median of the ratios of their processor times.
#
# usage: bench/albums.sh [RUNS]
# It is run by hand on a machine that does nothing else; it tests nothing.
set -eu
cd "$(dirname "$0")/.."
runs=${1:-9}
work=$(mktemp -d)
trap 'rm -rf "$work"' EXIT

(cd crates/bench_albums && rt run -- range 1 >"$work/log" 2>&1) || { cat "$work/log"; exit 1; }
proved=crates/bench_albums/out/bench_albums
gcc -O2 -o "$work/album" bench/album.c -lm

# seconds of processor time, and what the program printed in the file `sum`
timed() {
    local TIMEFORMAT=%3U
    { time "$@" >"$work/sum"; } 2>&1
}

# question, rounds
compare() {
    local question=$1 rounds=$2 run ours theirs sum
    : >"$work/ratios"
    for ((run = 0; run < runs; run++)); do
        ours=$(timed "$proved" "$question" "$rounds")
        sum=$(cat "$work/sum")
        theirs=$(timed "$work/album" "$question" "$rounds")
        if [ "$sum" != "$(cat "$work/sum")" ]; then
            echo "$question: the sums differ" >&2
            exit 1
        fi
        awk -v ours="$ours" -v theirs="$theirs" -v rounds="$rounds" \
            'BEGIN { printf "%.3f %.3f %.3f\n", ours / theirs, ours / rounds * 1e3, theirs / rounds * 1e3 }' >>"$work/ratios"
    done
    sort -n "$work/ratios" | awk -v name="$question" '
        { ratio[NR] = $1; ours[NR] = $2; theirs[NR] = $3 }
        END { m = int((NR + 1) / 2); print name ": " ratio[m] " times the time of C (" ours[m] " and " theirs[m] " ms an answer, from " ratio[1] " to " ratio[NR] " in " NR " runs)" }'
}

compare loudness 10000
compare range 500
