#!/bin/bash
# Times the import of waves of one segment into an empty library in memory, by one worker, and the
# measuring of the same waves alone. It prints the least processor time of some runs of each, user and
# system together, and the difference, which is what imports spend outside measuring: the goal is less
# than one second for 10,000 waves. Then it prints what it takes to ask for one of the recordings, to keep
# a token and to look for one among 100,000, and to move a recording between two albums of 200 recordings
# of six seconds: the goals are a millisecond, 2 microseconds and 25 ms.
#
# usage: bench/imports.sh [RUNS [WAVES]]
# WAVES is how many waves: 10000 unless it is said.
# It is run by hand on a machine that does nothing else; it tests nothing.
set -eu
cd "$(dirname "$0")/.."
runs=${1:-9}
waves=${2:-10000}
work=$(mktemp -d)
trap 'rm -rf "$work"' EXIT

(cd crates/bench_imports && rt run -- import 1 >"$work/log" 2>&1) || { cat "$work/log"; exit 1; }
proved=crates/bench_imports/out/bench_imports

tokens=100000
moves=200

# seconds of processor time of a work done so many times, which must print so many
timed() {
    local TIMEFORMAT='%3U %3S' work_name=$1 times=$2 want=$3
    { time "$proved" "$work_name" "$times" >"$work/done"; } 2>"$work/time"
    if [ "$(cat "$work/done")" != "$want" ]; then
        echo "$work_name: $(cat "$work/done") in place of $want" >&2
        exit 1
    fi
    awk '{ printf "%.3f\n", $1 + $2 }' "$work/time"
}

# the least of the seconds in a file
least() {
    sort -n "$work/$1" | head -1
}

for ((run = 0; run < runs; run++)); do
    timed measure "$waves" "$waves" >>"$work/measured"
    timed import "$waves" "$waves" >>"$work/imported"
    timed ask "$waves" $((waves * 10)) >>"$work/asked"
    timed albums "$tokens" "$tokens" >>"$work/added"
    timed tokens "$tokens" $((tokens * 10)) >>"$work/looked"
    timed regroup 0 0 >>"$work/filled"
    timed regroup "$moves" "$moves" >>"$work/moved"
done
awk -v w="$waves" -v runs="$runs" -v m="$(least measured)" -v i="$(least imported)" -v a="$(least asked)" 'BEGIN {
    printf "%d waves of one segment, the least of %d runs: measured %.3f s, imported %.3f s\n", w, runs, m, i
    printf "outside measuring: %.3f s\n", i - m
    printf "a question after a recording: %.1f microseconds\n", (a - i) / (w * 10) * 1e6
}'
awk -v t="$tokens" -v m="$moves" -v a="$(least added)" -v l="$(least looked)" -v f="$(least filled)" -v r="$(least moved)" 'BEGIN {
    printf "an album added, its token kept, %d of them: %.1f microseconds each\n", t, a / t * 1e6
    printf "a token made and looked for among %d: %.2f microseconds\n", t, (l - a) / (t * 10) * 1e6
    printf "a recording moved between two albums of 200: %.2f ms\n", (r - f) / m * 1e3
}'
