#!/bin/bash
# Times what a server of a library does all evening, part by part, and prints rows for docs/PERFORMANCE.md:
#
#   imports    five minutes of stereo of either kind, at one worker and at four, beside ffmpeg and loudgain where
#              these are here (some two minutes)
#   hundred    an import of 100 MB beside what it has to do: measuring, and two digests (a minute)
#   largest    twenty rounds of the largest body, with the memory that they take (some three minutes)
#   questions  over one connection (half a minute)
#   opening    of 1,000 and of 10,000 recordings of five minutes (some two minutes)
#
# usage: bench/evening.sh [PART ..]
# Without words it does all. RUNS says how often each thing is timed, of which the median counts: 5 unless it is
# said. LOUDLIB_PROGRAM and BENCH_FILES name loudlib and bench_files as they were built elsewhere. It is run by hand
# on a machine that does nothing else, with the port 8330 free; it tests nothing.
set -eu

clone=$(cd "$(dirname "$0")/.." && pwd -P)
program=${LOUDLIB_PROGRAM:-$clone/crates/loudlib/out/loudlib}
runs=${RUNS:-5}
. "$clone/scripts/a-server.sh"
need_port
[ -x "$program" ] || { echo "$program is not built: ./loudlib builds it" >&2; exit 1; }
work=$(mktemp -d)
trap '[ -z "$pid" ] || kill "$pid" 2>/dev/null; rm -rf "$work"' EXIT
trap 'exit 1' HUP INT TERM

has() { command -v "$1" >/dev/null; }

# ---- what is timed

# the time in seconds
now() { echo "${EPOCHREALTIME/,/.}"; }

# seconds between two times
between() { awk -v a="$1" -v b="$2" 'BEGIN { printf "%.4f\n", b - a }'; }

# seconds of processors that the server has had
processor() { awk -v tick="$(getconf CLK_TCK)" '{ sub(/.*\) /, ""); print ($12 + $13) / tick }' "/proc/$pid/stat"; }

# its highest resident size, in MB of a million bytes
highest() { awk '/^VmHWM/ { printf "%.0f\n", $2 * 1024 / 1e6 }' "/proc/$pid/status"; }

# the median of a column of a file
median() { cut -d ' ' -f "$2" "$1" | sort -n | awk '{ t[NR] = $1 } END { print t[int((NR + 1) / 2)] }'; }

token=0
# method, target, file: `seconds` are those of the clock up to the reply, `busy` those of processors; the reply
# must be one of an accepted change
send() {
    local told before
    token=$((token + 1))
    before=$(processor)
    told=$(curl -sS -m 300 -o reply -w '%{http_code} %{time_total}' -X "$1" -H "Request-Token: evening-$token" \
        -H 'Expect:' -T "$3" "$server$2")
    case $told in
    20[01]\ *) seconds=${told#* } ;;
    *) echo "$1 $2: $told $(cat reply)" >&2 && exit 1 ;;
    esac
    busy=$(between "$before" "$(processor)")
}

# a file of times, and what is run: a line of its seconds by the clock and of processors
timed() {
    local TIMEFORMAT='%3R %3U %3S' kept=$1
    shift
    { time "$@" >"$work/told" 2>&1 </dev/null; } 2>"$work/time" || { cat "$work/told" >&2; exit 1; }
    awk '{ print $1, $2 + $3 }' "$work/time" >>"$kept"
}

# ---- files

# a number as four bytes, the lowest first
number() {
    local i
    for ((i = 0; i < 32; i += 8)); do printf "\\x$(printf %02x $(($1 >> i & 255)))"; done
}

# bits, length of the samples in bytes: the head of a wave of stereo
head_of() {
    printf RIFF && number $((36 + $2)) && printf 'WAVEfmt \x10\0\0\0\x01\0\x02\0\x80\xbb\0\0'
    number $((48000 * $1 / 4)) && printf "\\x$(printf %02x $(($1 / 4)))\\0\\x$(printf %02x "$1")\\0data" && number "$2"
}

# bits, seconds, name: a wave of music as bench/music.c makes it
music() {
    [ -x "$work/music" ] || gcc -O2 -o "$work/music" "$clone/bench/music.c" -lm
    "$work/music" "$1" "$2" >"$work/raw"
    { head_of "$1" "$(wc -c <"$work/raw")" && cat "$work/raw"; } >"$3"
    rm -f "$work/raw"
}

# ---- parts

# a file of times, seconds of sound: how many times as fast as real time, and the seconds of processors
cell() {
    awk -v s="$(median "$1" 1)" -v p="$(median "$1" 2)" -v sound="$2" \
        'BEGIN { printf " %.0f (%.2f s) |", sound / s, p }'
}

# a file, seconds of sound: its row
import_row() {
    local file=$1 workers tool run
    rm -f "$work"/*.times
    for workers in 1 4; do
        start "$work/imports-$workers" --workers $workers
        for ((run = 0; run < runs; run++)); do
            send POST /recordings "$file"
            echo "$seconds $busy" >>"$work/$workers.times"
        done
        stop TERM
    done
    for ((run = 0; run < runs; run++)); do
        ! has ffmpeg || timed "$work/ffmpeg.times" \
            ffmpeg -nostdin -v error -threads 1 -i "$file" -af ebur128=peak=true -f null -
        ! has loudgain || timed "$work/loudgain.times" loudgain -q "$file"
    done
    printf '| %s |%s%s' "${file##*/}" "$(cell "$work/1.times" "$2")" "$(cell "$work/4.times" "$2")"
    for tool in ffmpeg loudgain; do
        if [ -f "$work/$tool.times" ]; then
            cell "$work/$tool.times" "$2"
            awk -v a="$(median "$work/$tool.times" 1)" -v b="$(median "$work/1.times" 1)" 'BEGIN { printf " %.2f |", a / b }'
        else
            printf ' not here | |'
        fi
    done
    echo
}

imports() {
    local bits sound=${SECONDS_OF_SOUND:-300}
    printf '| imported | 1 worker | 4 workers | ffmpeg | 1 worker beside it | loudgain | 1 worker beside it |\n'
    printf '|---|---|---|---|---|---|---|\n'
    for bits in 16 24; do
        music $bits "$sound" "$work/$bits.wav"
        import_row "$work/$bits.wav" "$sound"
        if has flac; then
            flac -s -f -5 "$work/$bits.wav" -o "$work/$bits.flac" 2>"$work/told"
            import_row "$work/$bits.flac" "$sound"
        fi
    done
    has flac || echo 'FLAC files: skipped, flac is not here'
}

hundred() {
    local file=$work/hundred.wav run measures=${BENCH_FILES:-$clone/crates/bench_files/out/bench_files}
    [ -n "${BENCH_FILES-}" ] || (cd "$clone/crates/bench_files" && rt run -- none >"$work/log" 2>&1) ||
        { cat "$work/log" >&2; exit 1; }
    music 16 "${SECONDS_OF_SOUND:-520}" "$file"
    rm -f "$work"/*.times
    start "$work/hundred" --workers 4
    for ((run = 0; run < runs; run++)); do
        send POST /recordings "$file"
        echo "$seconds $busy" >>"$work/import.times"
        timed "$work/measure.times" "$measures" "$file" 4 1
        timed "$work/digest.times" md5sum "$file" "$file"
        # what the system takes to have as many bytes on the disk
        timed "$work/disk.times" dd if="$file" of="$work/copy" bs=1M conv=fsync
    done
    stop TERM
    printf '| a wave of %d bytes, 4 workers | seconds by the clock | seconds of processors |\n|---|---|---|\n' "$(wc -c <"$file")"
    for run in 'an import:import' 'read, accepted and measured alone:measure' 'two digests by md5sum:digest' \
        'a copy that is synced, by dd:disk'; do
        printf '| %s | %s | %s |\n' "${run%:*}" "$(median "$work/${run#*:}.times" 1)" "$(median "$work/${run#*:}.times" 2)"
    done
}

largest() {
    local data=$((${LARGEST:-268435456} - 44)) run
    { head_of 16 $data && head -c $data /dev/urandom; } >"$work/largest.wav"
    start "$work/largest" --workers 4
    printf '| the largest wave, 4 workers | seconds by the clock | of processors | highest resident size, MB |\n'
    printf '|---|---|---|---|\n| an empty library | | | %s |\n' "$(highest)"
    send POST /recordings "$work/largest.wav"
    printf '| an import | %.1f | %.1f | %s |\n' "$seconds" "$busy" "$(highest)"
    for ((run = 2; run <= 20; run++)); do
        send PUT /recordings/1/audio "$work/largest.wav"
        [ $run -ne 2 ] && [ $run -ne 20 ] ||
            printf '| a retake, round %d | %.1f | %.1f | %s |\n' $run "$seconds" "$busy" "$(highest)"
    done
    echo "files of takes: $(find takes -type f | wc -l)"
    stop TERM
    rm -rf "$work/largest" "$work/largest.wav"
}

# what was asked, how often, since when: its row
questions_row() { awk -v what="$1" -v n="$2" -v s="$(between "$3" "$(now)")" 'BEGIN { printf "| %s | %.0f |\n", what, n / s }'; }

questions() {
    local count=${QUESTIONS:-20000} began answered i
    start "$work/questions" --workers 4
    sh "$clone/examples/one-second.sh" >"$work/tone.wav"
    send POST /recordings "$work/tone.wav"
    for ((i = 0; i < count; i++)); do printf 'GET /recordings/1 HTTP/1.1\r\n\r\n'; done >"$work/questions.http"
    printf 'GET /recordings/1 HTTP/1.1\r\nConnection: close\r\n\r\n' >>"$work/questions.http"
    printf '| questions over one connection | a second |\n|---|---|\n'
    began=$(now)
    curl -sS -m 300 -o /dev/null "$server/recordings/1#[1-$count]"
    questions_row 'one after another, by curl' $count "$began"
    if has wrk; then
        wrk -t 1 -c 1 -d 5s "$server/recordings/1" >"$work/wrk"
        awk '/^Requests\/sec/ { printf "| one after another, by wrk | %.0f |\n", $2 }' "$work/wrk"
    fi
    began=$(now)
    exec 3<>/dev/tcp/127.0.0.1/8330
    cat "$work/questions.http" >&3 &
    answered=$(timeout 120 tr -d '\r' <&3 | grep -c 'HTTP/1.1 200 OK$') || true
    exec 3>&-
    questions_row "$answered in one piece" "$answered" "$began"
    stop TERM
}

# a folder, how many recordings: a library with the rows of its one recording as often, the log not yet copied
multiply() {
    sqlite3 "$1/library.db" >"$work/told" "
        PRAGMA wal_autocheckpoint = 0;" '.dbconfig no_ckpt_on_close on' "
        BEGIN;
        WITH RECURSIVE n(i) AS (SELECT 2 UNION ALL SELECT i + 1 FROM n WHERE i < $2)
        INSERT INTO segments SELECT i, energies FROM segments, n WHERE take = 1;
        WITH RECURSIVE n(i) AS (SELECT 2 UNION ALL SELECT i + 1 FROM n WHERE i < $2)
        INSERT INTO recordings SELECT i, NULL, 'number ' || i, i, kind, channels, depth, digest, frames, loudness,
            loudness_range, momentary, short_term, true_peak, peak, gain FROM recordings, n WHERE id = 1;
        WITH RECURSIVE n(i) AS (SELECT 2 UNION ALL SELECT i + 1 FROM n WHERE i < $2)
        INSERT INTO replies SELECT 'number-' || i, mark, status, body FROM replies, n;
        UPDATE counters SET next_recording = $2 + 1, next_take = $2 + 1;
        COMMIT;"
}

# what is opened, the folder of it: its row. Each run opens a copy, since an opening may change it.
opening_row() {
    local run began
    : >"$work/times"
    for ((run = 0; run < runs; run++)); do
        rm -rf "$work/opened"
        cp -r "$2" "$work/opened"
        sync
        began=$(now)
        start "$work/opened" --workers 4
        echo "$(between "$began" "$(now)") $(highest)" >>"$work/times"
        stop TERM
    done
    printf '| %s | %s | %s | %.2f | %s |\n' "$1" "$(stat -c %s "$2/library.db" | awk '{ printf "%.0f", $1 / 1e6 }')" \
        "$(stat -c %s "$2/library.db-wal" 2>/dev/null | awk '{ printf "%.0f", $1 / 1e6 }')" \
        "$(median "$work/times" 1)" "$(median "$work/times" 2)"
}

# a folder: its log is copied into the database, as a server does whose connections are used up
copy_log() {
    (cd "$1" && exec "$program" serve --connections 1 >lines 2>faults </dev/null) &
    pid=$!
    curl -sS -m 60 --retry 60 --retry-delay 1 --retry-connrefused -o /dev/null "$server/recordings/1" 2>"$work/told"
    wait "$pid"
    pid=
}

opening() {
    local count
    has sqlite3 || { echo 'opening: skipped, sqlite3 is not here'; return 0; }
    music 16 "${SECONDS_OF_SOUND:-300}" "$work/five.wav"
    start "$work/one" --workers 4
    send POST /recordings "$work/five.wav"
    stop TERM
    copy_log "$work/one"
    rm -rf "$work/one/takes"
    printf '| opened | database, MB | log, MB | seconds | highest resident size, MB |\n|---|---|---|---|---|\n'
    for count in ${COUNTS:-1000 10000}; do
        rm -rf "$work/log" && cp -r "$work/one" "$work/log"
        multiply "$work/log" $count
        opening_row "$count recordings, log not copied" "$work/log"
        copy_log "$work/log"
        opening_row "$count recordings, log copied" "$work/log"
    done
}

uname -srm
awk -F ': ' '/^model name/ { print $2; exit }' /proc/cpuinfo
echo "$(nproc) processors, load $(cut -d ' ' -f 1 /proc/loadavg), $(df -T "$work" | awk 'END { print $2 }') under $work"
[ $# -gt 0 ] || set -- imports hundred largest questions opening
for part; do
    case $part in
    imports | hundred | largest | questions | opening) ;;
    *) echo "there is no part $part" >&2 && exit 1 ;;
    esac
    echo
    cd "$work"
    "$part"
done
