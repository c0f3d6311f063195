#!/bin/bash
# The first evening with a library, as an archive's engineer has it, with ordinary tools: a folder is
# imported, levels are read, recordings are moved and removed, the plug is pulled. It runs in a folder of its
# own, with the port 8330 free, by hand, for some three minutes. What a tool is missing for is passed over,
# and said.
#
# usage: scripts/first-evening.sh
# LOUDLIB_PROGRAM names another program than ./loudlib, by its whole path. The status is 0 where each step
# came out right, 1 where one did not, 2 where another program holds the port.
set -u

clone=$(cd "$(dirname "$0")/.." && pwd -P)
program=${LOUDLIB_PROGRAM:-$clone/loudlib}
. "$clone/scripts/a-server.sh"
need_port
work=$(mktemp -d)
wrong=0 right=0 passed=0 done=no
importing=

finish() {
    [ -z "$importing" ] || kill "$importing" 2>/dev/null
    [ -z "$pid" ] || kill "$pid" 2>/dev/null
    if [ $done = yes ] && [ "$wrong" -eq 0 ]; then rm -rf "$work"; else echo "what is left is in $work"; fi
}
trap finish EXIT
trap 'exit 1' HUP INT TERM

has() { command -v "$1" >/dev/null; }

# Says how a step came out: its name, what was found, what was wanted.
check() {
    if [ "$2" = "$3" ]; then
        right=$((right + 1))
        echo "right: $1"
    else
        wrong=$((wrong + 1))
        printf 'WRONG: %s\n  found  %s\n  wanted %s\n' "$1" "$2" "$3"
    fi
}

pass() {
    passed=$((passed + 1))
    echo "passed over: $1"
}

# ---- what the server is asked

# method, target, and words of curl: the body of the reply
ask() {
    local method=$1 target=$2
    shift 2
    curl -sS -g -m 300 -X "$method" -H "Request-Token: evening-$BASHPID-${EPOCHREALTIME/[.,]/-}" -H 'Expect:' \
        "$@" "$server$target"
}

# a status and the body before it
told() { ask "$@" -w ' %{http_code}'; }

# a folder and an album's name: what the script of imports says, which has ten minutes
import() { timeout 600 sh "$clone/examples/import-folder.sh" "$@"; }

# the value of a key of a reply
value() { sed -n 's/.*"'"$1"'":"\{0,1\}\([^",}]*\).*/\1/p'; }

# how many recordings an album has
members() { ask GET "/albums/$1" | sed 's/.*"recordings":\[\([^]]*\)\].*/\1/' | tr ',' '\n' | grep -c .; }

# the id of the album of which the lines of an import tell
album_of() { head -n 1 "$1" | sed 's/album \([0-9]*\):.*/\1/'; }

# what is measured of a reply, without names and numbers
levels() { sed -E 's/"(album|id|name|take|recordings)":("[^"]*"|\[[^]]*\]|[^,}]*),?//g'; }

# the levels of an album of these files, taken in afresh by a library of its own
afresh() {
    local fresh=$work/afresh file
    rm -rf "$fresh" && mkdir "$fresh"
    {
        printf 'POST /albums HTTP/1.1\r\nRequest-Token: a\r\nContent-Length: 12\r\n\r\n{"name":"A"}'
        for file in "$@"; do
            printf 'POST /albums/1/recordings HTTP/1.1\r\nRequest-Token: %s\r\nContent-Length: %d\r\n\r\n' \
                "$(printf %s "$file" | md5sum | cut -c 1-32)" "$(wc -c <"$file")"
            cat "$file"
        done
        printf 'GET /albums/1 HTTP/1.1\r\nConnection: close\r\n\r\n'
    } | (cd "$fresh" && timeout 300 "$program" session) | tail -n 1 | levels
}

# ---- files: by Python, sox, ffmpeg and flac, in the plain form of waves and in the extensible one

# name, channels, bits, seconds, rate, where the tone lies in hertz
make_wave() {
    python3 - "$1" "$2" "$3" "$4" "${5:-48000}" "${6:-997}" <<'END'
import math, random, sys, wave
name, channels, bits, seconds, rate, tone = sys.argv[1], *map(int, sys.argv[2:])
random.seed(tone)
w = wave.open(name, "wb")
w.setnchannels(channels)
w.setsampwidth(bits // 8)
w.setframerate(rate)
top, data = 2 ** (bits - 1), bytearray()
for t in range(seconds * rate):
    swell = (1 + t % rate / rate) / 8
    for c in range(channels):
        v = swell * math.sin(2 * math.pi * tone * (c + 1) * t / rate) + random.uniform(-0.01, 0.01)
        data += int(v * top).to_bytes(bits // 8, "little", signed=True)
w.writeframes(bytes(data))
w.close()
END
}

echo "the evening is in $work"
archive=$work/archive
mkdir -p "$archive/sub"
if has python3; then
    make_wave "$archive/mono 16.wav" 1 16 4
    make_wave "$archive/stereo 16.wav" 2 16 4 48000 400
    make_wave "$archive/stereo 24.wav" 2 24 4 48000 3000
    make_wave "$work/other rate.wav" 1 16 1 44100
else
    sh "$clone/examples/one-second.sh" >"$archive/mono 16.wav"
    pass 'plain waves of several forms: there is no python3'
fi
if has sox; then
    sox -q -n -r 48000 -b 24 -c 2 "$archive/noise 24.wav" synth 5 pinknoise vol 0.4
    sox -q -n -r 48000 -b 16 -c 1 "$archive/sub/[1] {sweep}.wav" synth 5 sine 100-8000 vol 0.5
else
    pass 'waves of sox: it is not here'
fi
if has ffmpeg; then
    one='0.1*sin(1257*t)' two='0.2*sin(1885*t)' three='0.1*sin(6000*t)'
    ffmpeg -nostdin -v error -f lavfi -i \
        "aevalsrc=$one|$two|$three|0.3*sin(300*t)|0.1*random(0)-0.05|0.2*sin(2500*t*t):c=5.1:d=4:s=48000" \
        -c:a pcm_s16le "$archive/sub/five-one 16.wav"
    ffmpeg -nostdin -v error -i "$archive/sub/five-one 16.wav" -af volume=0.5 -c:a pcm_s24le \
        "$archive/sub/five-one 24.wav"
else
    pass 'waves of ffmpeg, of 5.1 channels: it is not here'
fi
if has flac; then
    find "$archive" -name '*.wav' -exec flac -s -f {} + 2>"$work/warnings"
elif has ffmpeg; then
    find "$archive" -name '*.wav' -exec sh -c 'ffmpeg -nostdin -v error -i "$1" "${1%.wav}.flac"' sh {} \;
else
    pass 'FLAC files: there is neither flac nor ffmpeg'
fi
[ ! -f "$archive/mono 16.flac" ] || head -c 20000 "$archive/mono 16.flac" >"$work/cut.flac"
mapfile -t files < <(find "$archive" -name '*.wav' -o -name '*.flac')
count=${#files[@]}

# ---- each request of docs/HTTP.md

if has python3; then
    start "$work/documented"
    ln -s "$clone/examples" examples
    python3 "$clone/scripts/documented.py" "$clone/docs/HTTP.md" >"$work/shown"
    check 'docs/HTTP.md shows what comes' "$? $(tail -n 1 "$work/shown" | sed 's/.*commands, //')" \
        '0 0 of them otherwise than shown'
    stop TERM
else
    pass 'docs/HTTP.md: there is no python3'
fi

# ---- the folder, which is named by a link

ln -s "$archive" "$work/a link"
start "$work/library"
import "$work/a link" 'The archive' >"$work/first"
check 'the folder is imported' "$(tail -n 1 "$work/first")" "$count taken, 0 refused, 0 failed"
sed 's/^/  /' "$work/first"
check 'a second run imports nothing' "$(import "$work/a link" 'The archive' | md5sum)" "$(md5sum <"$work/first")"
check 'so the album has each file once' "$(members 1)" "$count"
check 'it is as measured afresh' "$(ask GET /albums/1 | levels)" "$(afresh "${files[@]}")"

# ffmpeg tells tenths
if has ffmpeg; then
    : >"$work/beside"
    for file in "${files[@]}"; do
        said=$(grep -F ": ${file##*/}: recording" "$work/first" | sed 's/.*recording [0-9]*, \([-0-9.]*\) LUFS.*/\1/')
        theirs=$(ffmpeg -nostdin -nostats -i "$file" -af ebur128 -f null - 2>&1 |
            awk '$1 == "I:" { i = $2 } END { print i }')
        awk -v a="$said" -v b="$theirs" 'BEGIN { exit !(a < 0 && b < 0 && a - b < 0.11 && b - a < 0.11) }' ||
            echo "$file: $said and by ffmpeg $theirs" >>"$work/beside"
    done
    check "levels of $count files are those of ffmpeg, within 0.1 LU" "$(cat "$work/beside")" ''
else
    pass 'levels beside ffmpeg: it is not here'
fi

# ---- what is refused

if has ffmpeg; then
    ffmpeg -nostdin -v error -i "$archive/mono 16.wav" "$work/song.mp3"
    check 'an MP3' "$(told POST /recordings --data-binary "@$work/song.mp3")" \
        '{"error":"format","place":0,"rule":"K1"} 422'
else
    check 'bytes of an MP3' "$(told POST /recordings --data-binary 'ID3')" \
        '{"error":"format","place":0,"rule":"K1"} 422'
fi
[ ! -f "$work/other rate.wav" ] || check 'a wave at 44,100 Hz' \
    "$(told POST /recordings --data-binary "@$work/other rate.wav")" \
    '{"error":"format","place":24,"rule":"V10"} 422'
if [ -f "$work/cut.flac" ]; then
    check 'a cut FLAC file' "$(told POST /recordings --data-binary "@$work/cut.flac" | sed 's/"place":[0-9]*,//')" \
        '{"error":"format","rule":"F29"} 422'
else
    pass 'a cut FLAC file'
fi
head -c 300000000 /dev/zero >"$work/large.wav"
check 'a file of 300 MB, and not a reset' "$(told POST /recordings -T "$work/large.wav")" '{"error":"size"} 413'
rm -f "$work/large.wav"

# ---- albums

set -- "$archive/mono 16.wav"
[ ! -f "$archive/stereo 16.wav" ] || set -- "$@" "$archive/stereo 16.wav" "$archive/stereo 24.wav"
album=$(ask POST /albums --data-binary '{"name":"Moves"}' | value id)
other=$(ask POST /albums --data-binary '{"name":"Other"}' | value id)
ids=()
for file in "$@"; do ids+=("$(ask POST "/albums/$album/recordings" -T "$file" | value id)"); done
check 'an album is as measured afresh' "$(ask GET "/albums/$album" | levels)" "$(afresh "$@")"
last=${ids[-1]}
moved=$(ask PUT "/recordings/$last/album" --data-binary "{\"album\":$other}" | value album)
check 'a recording is moved' "$moved" "$other"
check 'the other album is as measured afresh' "$(ask GET "/albums/$other" | levels)" "$(afresh "${@: -1}")"
[ $# -eq 1 ] || check 'the album without it is as measured afresh' "$(ask GET "/albums/$album" | levels)" \
    "$(afresh "${@:1:$#-1}")"
ask PUT "/recordings/$last/album" --data-binary "{\"album\":$album}" >"$work/back"
check 'and back' "$(ask GET "/albums/$album" | levels)" "$(afresh "$@")"
sh "$clone/examples/one-second.sh" >"$work/tone.wav"
take=$(ask PUT "/recordings/${ids[0]}/audio" -T "$work/tone.wav" | value loudness)
check 'a retake' "$take" '-1724'
check 'the album with it is as measured afresh' "$(ask GET "/albums/$album" | levels)" \
    "$(afresh "$work/tone.wav" "${@:2}")"
check 'an album with recordings is not removed' "$(told DELETE "/albums/$album")" '{"error":"not-empty"} 409'
for id in "${ids[@]}"; do ask DELETE "/recordings/$id" >"$work/removed"; done
check 'without them it is' "$(told DELETE "/albums/$album")" "{\"removed\":$album} 200"

# ---- connections

check '1,000 questions over one connection' \
    "$(curl -sS -m 120 -o /dev/null -w '%{http_code} %{num_connects}\n' "$server/albums/1#[1-1000]" |
        awk '{ code[$1]++; connects += $2 } END { print code[200], connects }')" '1000 1'
check 'a client of HTTP/1.0' "$(curl -sS -m 60 --http1.0 -o /dev/null -w '%{http_code}' "$server/albums/1")" 200
exec 3<>/dev/tcp/127.0.0.1/8330
printf 'GET /albums/1 HTTP/1.1\r\n\r\nGET /albums/9999 HTTP/1.1\r\nConnection: close\r\n\r\n' >&3
check 'two requests in one piece' \
    "$(timeout 60 tr -d '\r' <&3 | grep -c '^HTTP/1.1 200 OK$\|HTTP/1.1 404 Not Found$')" 2
exec 3>&-
exec 3<>/dev/tcp/127.0.0.1/8330
sleep 0.2
began=$SECONDS
check 'a busy client beside an idle one' "$(curl -sS -m 60 -o /dev/null -w '%{http_code}' "$server/albums/1")" 200
waited=$((SECONDS - began))
# 30 s of silence, and 2 in which what an ended peer still sends is dropped
check "which waited for it ($waited s), 34 s at most" "$((waited <= 34))" 1
exec 3>&-

# ---- a second process, and a pulled plug

(cd "$work/library" && timeout 60 "$program" serve --connections 1 >"$work/second" 2>"$work/reason")
check 'a second server in the folder' \
    "$? $(wc -c <"$work/second") $(grep -c 'library.db: database is locked' "$work/reason")" '6 0 1'

mkdir -p "$work/many"
for ((i = 0; i < 60; i++)); do
    {
        head -c 44 "$work/tone.wav"
        tail -c 96000 "$work/tone.wav" | head -c $((96000 - 2 * i))
        head -c $((2 * i)) /dev/zero
    } >"$work/many/tone $i.wav"
done

# an album's name, and where the lines go: an import begins, and a third of it is acknowledged
begin_import() {
    : >"$2"
    sh "$clone/examples/import-folder.sh" "$work/many" "$1" >"$2" &
    importing=$!
    while [ "$(grep -c ': recording' "$2")" -lt 20 ] && kill -0 "$importing" 2>/dev/null; do sleep 0.01; done
}

begin_import Many "$work/before"
stop KILL
kill "$importing" 2>/dev/null
wait "$importing" 2>/dev/null
importing=
acknowledged=$(grep -c ': recording' "$work/before")
check "a kill within an import, behind $acknowledged of 60 files" "$((acknowledged < 60))" 1
start "$work/library"
import "$work/many" Many >"$work/after"
check 'the rest is taken' "$(tail -n 1 "$work/after")" '60 taken, 0 refused, 0 failed'
check 'what was acknowledged has the same ids' \
    "$(comm -23 <(grep ': recording' "$work/before" | sort) <(sort "$work/after") | wc -l)" 0
check 'each file is there once' "$(members "$(album_of "$work/after")")" 60

begin_import Through "$work/through"
stop KILL
start "$work/library"
wait "$importing"
importing=
check 'an import goes on where its server is killed and started' "$(tail -n 1 "$work/through")" \
    '60 taken, 0 refused, 0 failed'
through=$(album_of "$work/through")
check 'it has each file once too' "$(members "$through")" 60

# ---- a look from outside

recording=$(ask GET /albums/1 | sed 's/.*"recordings":\[\([0-9]*\).*/\1/')
reply=$(ask GET "/recordings/$recording")
albums=$(for ((i = 1; i <= through; i++)); do ask GET "/albums/$i"; done | grep -o '"recordings":' | wc -l)
stop TERM
if has sqlite3; then
    check 'a row is what the reply says' "$(sqlite3 library.db \
        "select id, loudness, true_peak, take from recordings where id = $recording")" \
        "$recording|$(value loudness <<<"$reply")|$(value true_peak <<<"$reply")|$(value take <<<"$reply")"
    check 'there are as many albums, recordings and segments rows as there should be' \
        "$(for table in albums recordings segments; do sqlite3 library.db "select count(*) from $table"; done | xargs)" \
        "$albums $((count + 120)) $((count + 120))"
    check 'the file of each take is there' "$(sqlite3 library.db 'select take from recordings' |
        while read -r take; do [ -f "takes/$take.bin" ] || echo "$take"; done)" ''
    check 'the database is sound' "$(sqlite3 library.db 'pragma integrity_check')" ok
    sqlite3 library.db "update recordings set name = 'Another' where id = $recording"
    start "$work/library"
    check 'a name that was changed from outside' "$(ask GET "/recordings/$recording" | value name)" Another
    stop TERM
else
    pass 'a look by sqlite3: it is not here'
fi

# ---- a server whose connections are used up

LOUDLIB_PROGRAM=$program sh "$clone/scripts/serve-on.sh" --connections 2 >served 2>said </dev/null &
pid=$!
check 'seven connections, two a server' "$(for ((i = 0; i < 7; i++)); do
    curl -sS -m 60 --retry 30 --retry-delay 1 --retry-all-errors -o /dev/null -w '%{http_code} ' \
        "$server/albums/1" 2>>"$work/retries"
done)" '200 200 200 200 200 200 200 '
kill "$pid"
wait "$pid"
check 'an end from outside' $? 143
pid=
check 'what was said of it' "$(grep -c 'it starts again' said)" 3
check 'the port is free' "$(port_is_held && echo held)" ''

echo 'what the servers said of faults:'
cat "$work"/*/all-faults | grep -v 'listening on' | sort | uniq -c
echo "$right right, $wrong wrong, $passed passed over"
done=yes
[ "$wrong" -eq 0 ]
