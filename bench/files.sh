#!/bin/bash
# Times what an import asks of a file: five minutes of stereo of 16 and of 24 bits, as a wave and as FLAC
# (level 5), are read, accepted and measured, at 1 and at 4 workers. Beside it, where they are here, ffmpeg's
# filter ebur128 with the true peak, and loudgain, each by one process, and by four at once on four copies. It
# prints how many times as fast as real time the fastest of some runs went and its processor seconds a file, user
# and system together; how 4 workers compare with the faster tool by four processes: the goals are 1 for
# FLAC and 2 for a wave; and the most memory that a run holds, over the file's size.
#
# usage: bench/files.sh [RUNS [SECONDS [PROGRAM]]]
# SECONDS is how long the sounds are: 300 unless it is said. PROGRAM is bench_files as it was built elsewhere;
# else it is built first.
# It is run by hand on a machine that does nothing else; it tests nothing.
set -eu
cd "$(dirname "$0")/.."
command -v flac >/dev/null || { echo 'skipped: flac is not here'; exit 0; }
runs=${1:-5}
seconds=${2:-300}
work=$(mktemp -d)
trap 'rm -rf "$work"' EXIT
proved=${3:-crates/bench_files/out/bench_files}
if [ $# -lt 3 ]; then
    (cd crates/bench_files && rt run -- none >"$work/log" 2>&1) || { cat "$work/log"; exit 1; }
fi
gcc -O2 -o "$work/music" bench/music.c -lm

# what is timed of a file: the path
by_1_worker() { "$proved" "$1" 1 1; }
by_4_workers() { "$proved" "$1" 4 1; }
by_ffmpeg() { ffmpeg -nostdin -v error -i "$1" -af ebur128=peak=true -f null -; }
by_loudgain() { loudgain -q "$1"; }

# four processes at once, each on a copy of its own
four_times() {
    local copy
    for copy in 1 2 3 4; do "$1" "$work/$copy.${2##*.}" & done
    wait
}

# one run: the name under which its seconds are kept, on the clock and of processors, and what is run
timed() {
    local TIMEFORMAT='%3R %3U %3S' name=$1
    shift
    { time "$@" >"$work/answer" 2>"$work/log"; } 2>"$work/time" || { cat "$work/log" >&2; exit 1; }
    cat "$work/time" >>"$work/$name.seconds"
}

# what the fastest of the runs kept under a name gave, of so many files at once
told() {
    sort -n "$work/$1.seconds" | head -1 | awk -v name="$1" -v files="$2" -v seconds="$seconds" \
        '{
            printf "  %s: %.0f times real time, %.2f s of processors a file\n",
                name, files * seconds / $1, ($2 + $3) / files
        }'
}

# seconds on the clock a file
clock() {
    sort -n "$work/$1.seconds" | head -1 | awk -v files="$2" '{ print $1 / files }'
}

tools=()
for tool in ffmpeg loudgain; do
    if command -v $tool >/dev/null; then tools+=("$tool"); else echo "$tool is not here"; fi
done

# all runs of a file, one of each kind in turn, and what they gave
compare() {
    local file=$1 run tool copy
    rm -f "$work"/*.seconds
    for copy in 1 2 3 4; do ln -f "$file" "$work/$copy.${file##*.}"; done
    for ((run = 0; run < runs; run++)); do
        timed 1_worker by_1_worker "$file"
        cp "$work/answer" "$work/by_1"
        timed 4_workers by_4_workers "$file"
        cmp "$work/answer" "$work/by_1"
        if grep -q ' at ' "$work/by_1"; then cat "$work/by_1" >&2; exit 1; fi
        for tool in "${tools[@]}"; do
            timed "$tool" "by_$tool" "$file"
            timed "four_of_$tool" four_times "by_$tool" "$file"
        done
    done
    told 1_worker 1
    told 4_workers 1
    for tool in "${tools[@]}"; do
        told "$tool" 1
        told "four_of_$tool" 4
        clock "four_of_$tool" 4 >>"$work/faster.seconds"
    done
    if [ -f "$work/faster.seconds" ]; then
        awk -v ours="$(clock 4_workers 1)" -v theirs="$(sort -n "$work/faster.seconds" | head -1)" \
            'BEGIN { printf "  4 workers are %.2f times as fast as four of the faster tool\n", theirs / ours }'
    fi
    if [ -x /usr/bin/time ]; then
        /usr/bin/time -f %M "$proved" "$file" 4 1 2>&1 >/dev/null | awk -v size="$(stat -c %s "$file")" \
            '{ printf "  at most %.1f MB are held, %.2f times the file\n", $1 * 1024 / 1e6, $1 * 1024 / size }'
    fi
}

for bits in 16 24; do
    "$work/music" $bits "$seconds" >"$work/music.raw"
    flac -s -f -5 --force-raw-format --bps=$bits --channels=2 --sample-rate=48000 --endian=little --sign=signed \
        -o "$work/music.flac" "$work/music.raw"
    flac -s -f -d -o "$work/music.wav" "$work/music.flac"
    rm "$work/music.raw"
    for kind in wav flac; do
        echo "$bits bits, $kind, $(stat -c %s "$work/music.$kind") bytes; load $(cut -d' ' -f1 /proc/loadavg)"
        compare "$work/music.$kind"
        mv "$work/by_1" "$work/$kind.answer"
    done
    cmp "$work/wav.answer" "$work/flac.answer"
done
