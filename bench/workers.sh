#!/bin/bash
# Times how many times as fast as one worker more workers measure noise, beside plain C of the same
# definitions with the same jobs (bench/workers.c), which has to print the same; how many times as
# much a loop that waits for the multiplier alone gets done by more threads, which tells whether the
# processors are cores of their own; what a tenth of a second takes; what one worker gains by going
# over each channel once; and how much memory a measurement takes beyond the sound. Each time is the
# best of some runs of five rounds less the best of as many runs of one; the runs of all programs and
# workers take turns.
#
# usage: bench/workers.sh [RUNS [TENTHS [PROGRAM]]]
# TENTHS is how long the sounds are, in tenths of a second: 600, one minute, unless it is said.
# PROGRAM is bench_workers as it was built elsewhere; else it is built first.
# It is run by hand on a machine that does nothing else; it tests nothing.
set -eu
cd "$(dirname "$0")/.."
runs=${1:-7}
tenths=${2:-600}
turns=200000000
work=$(mktemp -d)
trap 'rm -rf "$work"' EXIT
proved=${3:-crates/bench_workers/out/bench_workers}
plain=$work/plain
if [ $# -lt 3 ]; then
    (cd crates/bench_workers && rt run -- 2 24 1 1 1 >"$work/log" 2>&1) || { cat "$work/log"; exit 1; }
fi
gcc -O2 -DFAST -pthread -o "$plain" bench/workers.c

# runs a command once, and adds its seconds by the clock to those of the same words
run() {
    local TIMEFORMAT=%3R
    { time "$@" >"$work/said"; } 2>>"$work/${*##*/}.times"
}

# the least seconds of a command
best() {
    sort -n "$work/${*##*/}.times" | head -1
}

# runs a command, all but its last word, for one round and for so many more
both() {
    run "${@:1:$#-1}" 1
    run "${@:1:$#-1}" $((${!#} + 1))
}

# the milliseconds of one round of it
round() {
    awk -v made="$(best "${@:1:$#-1}" 1)" -v whole="$(best "${@:1:$#-1}" $((${!#} + 1)))" -v rounds="${!#}" \
        'BEGIN { printf "%.3f\n", (whole - made) / rounds * 1000 }'
}

# how many times as fast one round of a program is by so many workers: program, channels, bits, workers
gain() {
    awk -v one="$(round "$1" "$2" "$3" "$tenths" 1 4)" -v some="$(round "$1" "$2" "$3" "$tenths" "$4" 4)" \
        'BEGIN { printf "%.2f (%.1f and %.1f ms)", one / some, some, one }'
}

# the most memory that a run holds, in KB: channels, bits, tenths of a second, workers, rounds
memory() {
    /usr/bin/time -f %M "$proved" "$@" 2>&1 >/dev/null
}

# ---- whether the processors are cores of their own

for ((i = 0; i < runs; i++)); do
    for threads in 1 2 3 4; do run "$plain" turn $turns $threads; done
    for other in 1 2 3; do run taskset -c 0,$other "$plain" turn $turns 2; done
done
one=$(best "$plain" turn $turns 1)
for threads in 2 3 4; do
    awk -v one="$one" -v some="$(best "$plain" turn $turns $threads)" -v threads=$threads \
        'BEGIN { printf "the loop by %d threads: %.2f times as much as 1\n", threads, threads * one / some }'
done
for other in 1 2 3; do
    awk -v one="$one" -v some="$(best taskset -c 0,$other "$plain" turn $turns 2)" -v other=$other \
        'BEGIN { printf "the same, on processors 0 and %d: %.2f times as much as 1\n", other, 2 * one / some }'
done

# ---- what more workers gain

for bits in 16 24; do
    for channels in 2 6; do
        for ((i = 0; i < runs; i++)); do
            for workers in 1 2 3 4; do
                both "$proved" $channels $bits "$tenths" $workers 4
                cp "$work/said" "$work/ours"
                both "$plain" $channels $bits "$tenths" $workers 4
                cmp "$work/ours" "$work/said"
            done
        done
        for workers in 2 3 4; do
            echo "$channels channels of $bits bits, $workers workers: $(gain "$proved" $channels $bits $workers) times as fast as 1, C $(gain "$plain" $channels $bits $workers)"
        done
    done
done

# ---- a channel gone over once, on one processor; two workers go over it twice, for the energies and for the peak

for bits in 16 24; do
    for ((i = 0; i < runs; i++)); do
        for workers in 1 2; do
            both taskset -c 0 "$proved" 1 $bits "$tenths" $workers 4
            both taskset -c 0 "$plain" 1 $bits "$tenths" $workers 4
        done
    done
    for program in "$proved" "$plain"; do
        awk -v b=$bits -v name="${program##*/}" \
            -v once="$(round taskset -c 0 "$program" 1 $bits "$tenths" 1 4)" \
            -v twice="$(round taskset -c 0 "$program" 1 $bits "$tenths" 2 4)" \
            'BEGIN { printf "one channel of %d bits gone over once, on one processor, %s: %.2f of twice (%.1f and %.1f ms)\n", b, name, once / twice, once, twice }'
    done
done

# ---- a short sound, and memory

for ((i = 0; i < runs; i++)); do
    for workers in 1 4; do both "$proved" 2 24 1 $workers 200; done
done
for workers in 1 4; do
    echo "0.1 s of two channels at $workers workers: $(round "$proved" 2 24 1 $workers 200) ms"
done
# A run of no round makes the noise alone.
for workers in 1 4; do
    base=$(memory 2 24 "$tenths" $workers 0)
    whole=$(memory 2 24 "$tenths" $workers 1)
    echo "memory beyond the sound, two channels at $workers workers: $((whole - base)) KB"
done
