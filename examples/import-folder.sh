#!/bin/sh
# Imports the waves and FLAC files below a folder, into an album or into none, with curl.
#
# usage: examples/import-folder.sh FOLDER [ALBUM]
#
# The album is made where this script has not made it yet. Each file becomes a recording of the name of
# the file, under a token made of album, name and content: so a run that broke off is started again, and
# goes on. What was acknowledged is answered again as it was, and nothing is imported twice.
#
# LOUDLIB says where the server is (http://127.0.0.1:8330). The status is 0 where no file failed, 1 where
# one did, 2 where the album or the folder is not to be had.
set -u

server=${LOUDLIB:-http://127.0.0.1:8330}
tries=4

die() {
    echo "import-folder: $1" >&2
    exit 2
}

[ $# -eq 1 ] || [ $# -eq 2 ] || die 'usage: import-folder.sh FOLDER [ALBUM]'
folder=$1
album=${2-}
[ -d "$folder" ] || die "$folder is no folder"
case $folder in
/*) ;;
*) folder=./$folder ;;
esac
command -v curl >/dev/null || die 'there is no curl'
work=$(mktemp -d) || exit 2
trap 'rm -rf "$work"' EXIT
trap 'exit 2' HUP INT TERM

# the MD5 of standard input in hex
if command -v md5sum >/dev/null; then
    md5() { md5sum | cut -d ' ' -f 1; }
elif command -v openssl >/dev/null; then
    md5() { openssl md5 -r | cut -d ' ' -f 1; }
else
    die 'there is neither md5sum nor openssl'
fi

# Sends a request, with the words of curl that make it, until it is answered by another status than that
# of a fault; the body of the reply is left in $work/reply. A token makes it safe to ask again. A reply that
# broke off is none, but that of a file too large may come while curl still sends. It waits for ten minutes
# where no byte moves, since other clients may be served first.
send() {
    try=0
    wait=1
    while :; do
        try=$((try + 1))
        status=$(curl -sS -g --http1.1 -Y 1 -y 600 -o "$work/reply" -w '%{http_code}' -H 'Expect:' "$@" \
            2>"$work/fault") || [ "$status" = 413 ] || status=000
        case $status in
        502 | 503 | 504 | 000 | '') ;;
        *) return 0 ;;
        esac
        [ "$try" -lt "$tries" ] || return 1
        sleep "$wait"
        wait=$((wait * 2))
    done
}

# why the last request was not answered, or by which fault
fault() {
    case $status in
    502) echo 'the vault failed (502): is the disk full?' ;;
    503) echo 'the server has no memory for it (503)' ;;
    504) echo 'the database failed (504)' ;;
    *) sed -n '$p' "$work/fault" ;;
    esac
}

# the value of a key of the reply
value() {
    sed -n 's/.*"'"$1"'":"\{0,1\}\([^",}]*\).*/\1/p' "$work/reply"
}

# a number of hundredths with its unit, or a dash
level() {
    case $1 in
    null | '') echo - ;;
    *) awk -v n="$1" -v unit="$2" 'BEGIN { printf "%.2f %s\n", n / 100, unit }' ;;
    esac
}

# what a rule means that a file breaks
meaning() {
    case $1 in
    K1) echo 'neither a wave nor a FLAC file' ;;
    V1 | V2) echo 'no wave file' ;;
    V3) echo 'the size at the front is not the length of the file: it was cut, or never closed' ;;
    V4) echo 'a part of the wave passes the end of the file: it was cut' ;;
    V5) echo 'the wave has two formats, two parts of samples, or two bext chunks' ;;
    V6) echo 'the wave has no format' ;;
    V7) echo 'the format of the wave is too short' ;;
    V8) echo 'the samples of the wave are floating-point or compressed, not PCM' ;;
    V9) echo 'the wave has no channel, or more than 6' ;;
    V10) echo 'the wave is not at 48,000 Hz' ;;
    V11) echo 'the wave has neither 16 nor 24 bits' ;;
    V12) echo 'the wave says another size of its frames than it has' ;;
    V13) echo 'the wave has no samples' ;;
    V14) echo 'the samples of the wave end within a frame' ;;
    V15) echo 'the bext chunk of the wave is too short' ;;
    F1 | F2 | F3 | F4 | F5) echo 'the head of the FLAC file is broken' ;;
    F6) echo 'the FLAC file is not at 48,000 Hz' ;;
    F7) echo 'the FLAC file has more than 6 channels' ;;
    F8) echo 'the FLAC file has fewer than 4 bits, or more than 24' ;;
    F28) echo 'a frame of the FLAC file is damaged: its checksum is another one' ;;
    F29) echo 'the FLAC file was cut within a frame' ;;
    F30) echo 'the FLAC file has another number of samples than it says' ;;
    F31) echo 'the samples of the FLAC file are not those of its MD5' ;;
    F32) echo 'the FLAC file has more than 134,217,728 samples' ;;
    F*) echo 'a frame of the FLAC file is broken' ;;
    C*) echo 'the comments of the FLAC file are broken' ;;
    *) echo 'docs/FORMATS.md has the rule' ;;
    esac
}

# what a refusal means
refusal() {
    word=$(value error)
    case $status/$word in
    422/format) echo "rule $(value rule) at byte $(value place): $(meaning "$(value rule)")" ;;
    413/*) echo 'larger than 268,435,456 bytes (413)' ;;
    404/no-album) echo 'the album was removed since this script made it (404)' ;;
    409/album-full) echo 'the album has 256 recordings (409)' ;;
    409/token-used) echo 'the token was used for another request (409)' ;;
    409/ids) echo 'no number is left for it (409)' ;;
    400/*) echo "its name is no name: more than 200 bytes, or no UTF-8 ($status ${word:-none})" ;;
    *) echo "the server answers $status ${word:-nothing}" ;;
    esac
}

# ---- the album

target=/recordings
if [ -n "$album" ]; then
    token=album-$(printf '%s' "$album" | md5)
    name=$(printf '%s' "$album" | sed 's/[\\"]/\\&/g')
    printf '{"name":"%s"}' "$name" >"$work/body"
    send -X POST -H "Request-Token: $token" --data-binary "@$work/body" "$server/albums" ||
        die "the album can't be made: $(fault)"
    [ "$status" = 201 ] || die "the album can't be made: $(refusal)"
    id=$(value id)
    target=/albums/$id/recordings
    echo "album $id: $album"
fi

# ---- the files, in the order of their paths

# the waves and FLAC files of which the path has a line end, or has none
found() {
    find -H "$folder" -type f \( -name '*.[wW][aA][vV]' -o -name '*.[fF][lL][aA][cC]' \) "$@"
}

found ! -path '*
*' >"$work/unsorted" || die "$folder can't be read"
odd=$(found -path '*
*' -exec echo odd \; | wc -l | tr -d ' ')
[ "$odd" -eq 0 ] || echo "passed over, for a line end in their names: $odd"
LC_ALL=C sort "$work/unsorted" >"$work/files"
total=$(wc -l <"$work/files" | tr -d ' ')
done=0 taken=0 refused=0 failed=0

while IFS= read -r file; do
    done=$((done + 1))
    name=$(printf '%s' "${file##*/}" | LC_ALL=C tr -d '\001-\037\177')
    content=$(md5 <"$file") && [ -n "$content" ] || {
        failed=$((failed + 1))
        echo "$done of $total: $name: can't be read"
        continue
    }
    token=import-$(printf '%s\n%s\n%s\n' "$album" "$name" "$content" | md5)
    if ! send -X POST -H "Request-Token: $token" -H "Recording-Name: $name" -T "$file" "$server$target" \
        </dev/null; then
        failed=$((failed + 1))
        echo "$done of $total: $name: failed: $(fault)"
    elif [ "$status" = 201 ]; then
        taken=$((taken + 1))
        echo "$done of $total: $name: recording $(value id)," \
            "$(level "$(value loudness)" LUFS), range $(level "$(value range)" LU)," \
            "true peak $(level "$(value true_peak)" dBTP)"
    else
        refused=$((refused + 1))
        echo "$done of $total: $name: refused: $(refusal)"
    fi
done <"$work/files"

echo "$taken taken, $refused refused, $failed failed"
[ "$failed" -eq 0 ]
