#!/bin/bash
# Shows by strace that what an accepted request changed is on the disk before its reply is written: at each reply
# of 200 or 201 no file and no name waits for a sync. By hand; where strace is not here, nothing is tried, and it
# says so.
#
# usage: scripts/syncs-before-replies.sh
# LOUDLIB_PROGRAM names another program than the one that ./loudlib builds, by its whole path.
set -eu

command -v strace >/dev/null || { echo 'skipped: strace is not here'; exit 0; }
clone=$(cd "$(dirname "$0")/.." && pwd -P)
program=${LOUDLIB_PROGRAM:-$clone/crates/loudlib/out/loudlib}
work=$(mktemp -d)
trap 'rm -rf "$work"' EXIT
cd "$work"
sh "$clone/examples/one-second.sh" >tone.wav

# method, target, token, file: a request
request() {
    printf '%s %s HTTP/1.1\r\nRequest-Token: %s\r\nContent-Length: %d\r\n\r\n' "$1" "$2" "$3" "$(wc -c <"$4")"
    cat "$4"
}

printf '{"name":"A"}' >name
printf '{"album":null}' >none
{
    request POST /albums a name
    request POST /albums/1/recordings b tone.wav
    request PUT /recordings/1/audio c tone.wav
    request PUT /recordings/1/album d none
    request DELETE /recordings/1 e /dev/null
    request DELETE /albums/1 f /dev/null
} >requests
mkdir library && cd library
timeout 120 strace -f -y -s 12 -e trace=openat,write,writev,pwrite64,ftruncate,fsync,fdatasync,rename,renameat,renameat2 \
    -o "$work/trace" "$program" session <"$work/requests" >"$work/replies"

# A file that is made, and a name that is given, wait for a sync of their folder.
awk -v here="$PWD" '
    function path_of(line) { match(line, /<[^>]*>/); return substr(line, RSTART + 1, RLENGTH - 2) }
    function folder_of(path) { sub(/\/[^\/]*$/, "", path); return path }
    / openat\(.*O_CREAT.* = [0-9]+</ {
        path = $0; sub(/.* = [0-9]+</, "", path); sub(/>.*/, "", path)
        waiting[folder_of(path)] = 1
    }
    / rename[a-z0-9]*\(.* = 0/ { split($0, names, "\""); waiting[folder_of(here "/" names[4])] = 1 }
    / (write|writev|pwrite64|ftruncate)\([0-9]+<\// && path_of($0) ~ "^" here "/" { waiting[path_of($0)] = 1 }
    / (fsync|fdatasync)\(.* = 0/ { delete waiting[path_of($0)]; syncs++ }
    / write\(1</ && /HTTP\/1.1 20/ {
        replies++
        print "reply " replies ", behind " syncs " syncs"
        syncs = 0
        for (path in waiting) { print "  " path " waits for a sync"; wrong++ }
    }
    END { print replies + 0 " replies, " wrong + 0 " files or folders that wait"; exit wrong > 0 || replies != 6 }
' "$work/trace"
