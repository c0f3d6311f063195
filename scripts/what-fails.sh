#!/bin/bash
# What the program says where the things around it fail, as docs/RUNNING.md has it: a database that can't be
# opened, rows that break a rule, takes that are no folder, a full disk. By hand; it needs no port. The full
# disk is a small file system in memory, where one may be mounted.
#
# usage: scripts/what-fails.sh
# LOUDLIB_PROGRAM names another program than ./loudlib, by its whole path. The status is 0 where each step came
# out right, 1 else.
set -u

clone=$(cd "$(dirname "$0")/.." && pwd -P)
export clone program=${LOUDLIB_PROGRAM:-$clone/loudlib}
if [ "${1-}" != on-full-disk ]; then
    work=$(mktemp -d)
    trap 'rm -rf "$work"' EXIT
    trap 'exit 1' HUP INT TERM
    side=$work
fi
wrong=0

# Says how a step came out: its name, what was found, what was wanted.
check() {
    if [ "$2" = "$3" ]; then
        echo "right: $1"
    else
        wrong=$((wrong + 1))
        printf 'WRONG: %s\n  found  %s\n  wanted %s\n' "$1" "$2" "$3"
    fi
}

# method, target, token, file: a request
request() {
    printf '%s %s HTTP/1.1\r\nRequest-Token: %s\r\nContent-Length: %d\r\n\r\n' "$1" "$2" "$3" "$(wc -c <"$4")"
    cat "$4"
}

# Runs a session on standard input in the current folder: its exit status and the statuses of its replies. What
# it wrote and said is kept aside.
session() {
    timeout 120 "$program" session >"$side/out" 2>"$side/said"
    echo "$? $(grep -ao 'HTTP/1.1 [0-9]*' "$side/out" | cut -d ' ' -f 2 | xargs)"
}

# what was said, one line behind another
said() { paste -s -d '/' "$side/said"; }

# ---- a full disk

# fills what is left of the file system but for so many bytes
fill() { head -c $(($(df -B 1 --output=avail . | tail -n 1) - $1)) /dev/zero >filler; }

on_full_disk() {
    local made failed i
    printf '{"name":"%0200d"}' 0 >"$side/name"
    for ((i = 0; i < 60; i++)); do request POST /albums "d-$i" "$side/name"; done >"$side/many"
    for ((i = 1; i <= 62; i++)); do printf 'GET /albums/%d HTTP/1.1\r\n\r\n' "$i"; done >"$side/asked"
    check 'where there is room' "$({ request POST /albums a "$side/name" &&
        request POST /recordings b "$side/tone.wav"; } | session)" '0 201 201'
    fill 60000
    check 'a file that finds no room' "$(request POST /recordings c "$side/tone.wav" | session)" '0 502'
    check 'why' "$(said)" 'loudlib: takes/2.bin: No space left on device (os error 28)'
    check 'nothing is left of it' "$(ls takes)" 1.bin
    rm filler
    check 'with room again' "$(request POST /recordings c "$side/tone.wav" | session)" '0 201'
    fill 30000
    session <"$side/many" >"$side/told"
    made=$(tr ' ' '\n' <"$side/told" | grep -c 201)
    failed=$(tr ' ' '\n' <"$side/told" | grep -c 504)
    check "rows that find no room, behind $made that did" "$((made < 60 && made + failed == 60))" 1
    sort "$side/said" | uniq -c
    rm filler
    check 'a start with room again' "$(session <"$side/asked" | tr ' ' '\n' | grep -c 200)" "$((made + 1))"
    check 'and the changes that failed again' "$(session <"$side/many" | tr ' ' '\n' | grep -c 201)" 60
    check 'are done once' "$(session <"$side/asked" | tr ' ' '\n' | grep -c 200)" 61
    [ "$wrong" -eq 0 ]
}

if [ "${1-}" = on-full-disk ]; then
    side=$3
    mount -t tmpfs -o size=2m none "$2" && cd "$2" && on_full_disk
    exit
fi

# ---- databases that can't be opened

# a name, what is done in a new folder that holds a library of two recordings, the status, what is said
start_of() {
    rm -rf "$work/library"
    cp -r "$work/sound" "$work/library"
    cd "$work/library" || exit 1
    eval "$2"
    check "$1: status" "$(session </dev/null | xargs)" "$3"
    check "$1: what is said" "$(said)$(grep -a '^bad row' "$side/out")" "$4"
}

mkdir "$work/sound" && cd "$work/sound" || exit 1
sh "$clone/examples/one-second.sh" >"$work/tone.wav"
{ request POST /recordings a "$work/tone.wav" && request POST /recordings b "$work/tone.wav"; } >begin
check 'a library' "$(session <begin)" '0 201 201'

locked='loudlib: library.db: '
start_of 'a text in place of the database' 'rm library.db*; echo text >library.db' 6 \
    "${locked}file is not a database that obeys its schema"
start_of 'a folder in place of it' 'rm library.db*; mkdir library.db' 6 "${locked}unable to open database file"
start_of 'no database beside takes' 'rm library.db*' 6 \
    "${locked}a new database, where the folder of takes holds files"
check 'none is made' "$(ls -d library.db* 2>/dev/null)" ''
check 'nor by a second start: status' "$(session </dev/null | xargs)" 6
cp "$work/sound/library.db" library.db
check 'the database put back' "$(request POST /recordings a "$work/tone.wav" | session)" '0 201'
check 'it has its recordings' "$(printf 'GET /recordings/%d HTTP/1.1\r\n\r\n' 1 2 3 | session)" '0 200 200 404'
start_of 'an empty folder of takes' 'rm -r library.db* takes; mkdir takes' 0 ''

if command -v sqlite3 >/dev/null; then
    sql() { sqlite3 library.db "$1"; }
    start_of 'a row that can not be one' 'sql "update recordings set channels = -1 where id = 2"' 6 \
        "${locked}row 2 of recordings can't be one"
    start_of 'no counters' 'sql "delete from counters"' 6 "${locked}row 1 of counters can't be one"
    start_of 'another level' 'sql "update recordings set loudness = -1000 where id = 2"' 7 'bad row: table 3 id 2 rule 8'
    start_of 'an album that is not there' 'sql "update recordings set album = 7 where id = 2"' 7 \
        'bad row: table 3 id 2 rule 2'
    start_of 'no energies' 'sql "delete from segments where take = 1"' 7 'bad row: table 3 id 1 rule 6'
    start_of 'another status' 'sql "update replies set status = 404"' 7 'bad row: table 5 id 1 rule 9'
    start_of 'another name' "sql \"update recordings set name = 'Another'\"" 0 ''
else
    echo 'passed over: rows that were changed, since sqlite3 is not here'
fi

# ---- takes that are no folder

cd "$work" && rm -rf library && mkdir library && cd library || exit 1
: >takes
check 'takes are a file' "$(session <"$work/sound/begin")" '0 502 502'
check 'takes are a file: what is said' "$(said)" \
    'loudlib: takes/1.bin: Not a directory (os error 20)/loudlib: takes/1.bin: Not a directory (os error 20)'

# ---- wrong words

cd "$work" && rm -rf library && mkdir library && cd library || exit 1
check 'wrong words' "$("$program" serve >"$work/out" 2>&1; echo $?)" 1
check 'they make no file' "$(ls)" ''

if unshare -rm true 2>/dev/null; then
    mkdir "$work/disk"
    unshare -rm bash "$clone/scripts/what-fails.sh" on-full-disk "$work/disk" "$work" || wrong=$((wrong + 1))
else
    echo 'passed over: a full disk, since nothing may be mounted here'
fi
echo "$wrong wrong"
[ "$wrong" -eq 0 ]
