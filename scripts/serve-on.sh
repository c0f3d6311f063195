#!/bin/sh
# Serves the library of the current folder, and starts the server again while its connections are used up.
#
# usage: PATH/TO/scripts/serve-on.sh [WORDS OF serve ..]
#
# Without words it is `serve --connections 65535`. Any other status than 0 ends it, is its own, and is said
# in words on standard error.
set -u

program=$(CDPATH='' cd -- "$(dirname -- "$0")/.." && pwd -P)/loudlib
program=${LOUDLIB_PROGRAM:-$program}
[ $# -gt 0 ] || set -- --connections 65535

say() {
    echo "serve-on: $1" >&2
}

# what a status of `serve` means
meaning() {
    case $1 in
    1) echo 'the words are no command' ;;
    4) echo 'a line could not be written to standard output' ;;
    5) echo 'want of memory' ;;
    6) echo 'library.db could not be opened: the line before says why (another process may hold it)' ;;
    7) echo 'a row of library.db breaks a rule: the last line on standard output says which, and docs/FORMATS.md what it means' ;;
    10) echo 'no connection could be let in: the line before says why (another process may hold port 8330)' ;;
    125) echo 'the program could not be built: the lines before say why' ;;
    127) echo 'there is no rt on the path, which builds the program' ;;
    *) echo 'it was ended from outside' ;;
    esac
}

child=
# Ends the server too, and waits for that, so that the library is free behind it.
leave() {
    trap '' HUP INT TERM
    [ -z "$child" ] || { kill "$child" && wait "$child"; } 2>/dev/null
    exit "$1"
}
trap 'leave 129' HUP
trap 'leave 130' INT
trap 'leave 143' TERM

while :; do
    "$program" serve "$@" &
    child=$!
    wait "$child"
    status=$?
    child=
    if [ "$status" -ne 0 ]; then
        say "status $status: $(meaning "$status")"
        exit "$status"
    fi
    say 'its connections are used up, it starts again'
done
