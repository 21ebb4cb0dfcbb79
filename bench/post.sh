#!/bin/sh
# Imports one message into conferences of 0, 1,000 and 9,998 messages of 140 bytes, and says how many bytes each run
# writes, its reply with them. They are the same, or this fails. For the last it says how long the best run takes beside
# a `check` of that board. The message brings its msgid, since one that is made for it has the digits of its number. The
# files lie in memory where /dev/shm is there. It is no part of the gate.
# usage: bench/post.sh [RUNS]    PROGRAM may name the program.

# shellcheck disable=SC2034 # how often best times a command
runs=${1:-5}
top=$(dirname -- "$(readlink -f -- "$0")")/..
# shellcheck source=/dev/null
. "$top/bench/best.sh"
program=${PROGRAM:-$top/.build/qwkdoor}
work=$(mktemp -d -p /dev/shm 2>/dev/null) || work=$(mktemp -d) || exit 1
shelf=$work/shelf
trap 'rm -rf -- "$work"' EXIT
trap 'exit 1' HUP INT TERM

# A new copy of the board.
renew() {
    rm -rf -- "$work/board"
    cp -R "$work/kept" "$work/board"
}

# Imports one message into a new copy of the board.
post() {
    renew
    "$program" "$work/board" "$shelf" import 0 one
}

# How many bytes that writes.
written() {
    renew
    # shellcheck disable=SC2016 # the inner shell is to expand it
    sh -c '"$@" >/dev/null; sed -n "s/^wchar: //p" "/proc/$$/io"' sh "$program" "$work/board" "$shelf" import 0 one
}

# Looks at a new copy of the board, so that the copying counts on both sides.
look() {
    renew
    "$program" "$work/board" "$shelf" check
}

build_program
mkdir -p "$shelf" || exit 1
awk -v count=9998 'BEGIN {
    for (i = 0; i < 139; i++)
        line = line "x"
    for (i = 0; i < count; i++)
        printf "From: Bob Ray\nTo: All\nSubject: Hello\n\n%s\n.\n", line
}' >"$shelf/all"
head -n 6000 "$shelf/all" >"$shelf/some"
printf 'From: Bob Ray\nTo: All\nSubject: Hello\nMsgid: one more\n\nA line\n.\n' >"$shelf/one"
cp "$top/crates/qwkdoor/data/shelf/setup.txt" "$shelf" || exit 1

first=
for count in 0 1000 9998; do
    rm -rf -- "$work/kept"
    "$program" "$work/kept" "$shelf" init setup.txt >/dev/null || fail "init failed with status $?"
    case $count in
    1000) "$program" "$work/kept" "$shelf" import 0 some >/dev/null || fail "import failed with status $?" ;;
    9998) "$program" "$work/kept" "$shelf" import 0 all >/dev/null || fail "import failed with status $?" ;;
    esac
    [ "$(post)" = 'imported 1 into 0' ] || fail "one message into $count isn't imported"
    bytes=$(written)
    printf 'one message into %d: %d bytes written\n' "$count" "$bytes"
    [ "${first:=$bytes}" = "$bytes" ] || fail "$first bytes were written into an empty conference"
done
copying=$(best renew) || exit 1
looking=$(best look) || exit 1
posting=$(best post) || exit 1
awk -v copying="$copying" -v looking="$looking" -v posting="$posting" 'BEGIN {
    printf "one message into 9,998: %.4f s, check of that board: %.4f s, %.2f times as long\n", posting - copying, looking - copying, (posting - copying) / (looking - copying)
}'
row 'import of one message into 9,998' "$(awk -v a="$posting" -v b="$copying" 'BEGIN { print a - b }')" - -
row 'check of that board' "$(awk -v a="$looking" -v b="$copying" 'BEGIN { print a - b }')" - "$(best sha256sum "$work"/kept/*)"
