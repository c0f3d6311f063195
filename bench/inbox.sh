#!/bin/bash
# Times the reading of a request with a body of 100 MB out of a source in memory, beside plain C (gcc -O2) that
# copies as many bytes, and of a head of 8,192 bytes that comes one byte at a time. It prints the least processor
# time of some runs of each, user and system together, without what the first round takes: the goals are 1.5
# times a copy with the zeros before it, and 100 ms a head.
#
# usage: bench/inbox.sh [RUNS [PROGRAM]]
# PROGRAM is bench_inbox as it was built elsewhere; else it is built first.
# It is run by hand on a machine that does nothing else; it tests nothing.
set -eu
cd "$(dirname "$0")/.."
runs=${1:-9}
work=$(mktemp -d)
trap 'rm -rf "$work"' EXIT

proved=${2:-crates/bench_inbox/out/bench_inbox}
if [ $# -lt 2 ]; then
    (cd crates/bench_inbox && rt run -- head 1 >"$work/log" 2>&1) || { cat "$work/log"; exit 1; }
fi
gcc -O2 -o "$work/body" bench/body.c

# seconds of processor time of a program
timed() {
    local TIMEFORMAT='%3U %3S'
    { time "$@" >"$work/sum"; } 2>"$work/time"
    awk '{ printf "%.3f\n", $1 + $2 }' "$work/time"
}

# milliseconds a round, of ten rounds behind the first: the name, what comes before the count, the count and what
# comes after it
rounds() {
    local name=$1 run
    shift
    : >"$work/one"
    : >"$work/eleven"
    for ((run = 0; run < runs; run++)); do
        timed "${@/ROUNDS/1}" >>"$work/one"
        timed "${@/ROUNDS/11}" >>"$work/eleven"
    done
    awk -v name="$name" -v one="$(sort -n "$work/one" | head -1)" -v eleven="$(sort -n "$work/eleven" | head -1)" \
        'BEGIN { printf "%s: %.1f ms\n", name, (eleven - one) * 100 }'
}

rounds "a request with a body of 100 MB" "$proved" body ROUNDS
rounds "a copy of 100 MB, with zeros before it" "$work/body" ROUNDS zeros
rounds "a copy of 100 MB" "$work/body" ROUNDS
rounds "a head of 8,192 bytes, one byte at a time" "$proved" head ROUNDS
