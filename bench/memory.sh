#!/bin/sh
# Refuses the program each request for memory in turn, by a library that is loaded before the C library and answers the
# one request with nothing: of an export of one message, and of an upload of four, each on a copy of one board. A run
# that ends with 7 has said nothing, and leaves the board before; one that a file call ended since memory ran out in it,
# with 4 or 5, has said nothing, and leaves the board before or after; one that asked again is whole. Says how
# many ended how. It is no part of the gate. usage: bench/memory.sh

top=$(dirname -- "$(readlink -f -- "$0")")/..
# shellcheck source=/dev/null
. "$top/bench/best.sh"
program=${PROGRAM:-$top/.build/qwkdoor}
samples=$top/crates/qwkdoor/data/shelf
step=${1:-1}

if ! command -v cc >/dev/null; then
    echo 'memory: a C compiler is missing, so nothing is shown'
    exit 0
fi
work=$(mktemp -d) || exit 1
trap 'rm -rf -- "$work"' EXIT
trap 'exit 1' HUP INT TERM

# The request of the number REFUSE is refused, and then the file REFUSED is made.
cat >"$work/refuse.c" <<'PROGRAM'
#include <errno.h>
#include <fcntl.h>
#include <stddef.h>
#include <stdlib.h>
#include <unistd.h>

extern void *__libc_malloc(size_t);
extern void *__libc_realloc(void *, size_t);

static int refuses(void) {
    static long requests, refused = -1;
    if (refused < 0)
        refused = getenv("REFUSE") ? atol(getenv("REFUSE")) : 0;
    requests++;
    if (requests != refused)
        return 0;
    close(open(getenv("REFUSED"), O_CREAT | O_WRONLY, 0600));
    errno = ENOMEM;
    return 1;
}

void *malloc(size_t size) { return refuses() ? NULL : __libc_malloc(size); }

void *realloc(void *old, size_t size) { return refuses() ? NULL : __libc_realloc(old, size); }
PROGRAM
cc -O1 -shared -fPIC -o "$work/refuse.so" "$work/refuse.c" || fail 'the library was not built'

door() {
    "$program" "$work/board" "$work/shelf" "$@"
}

# A block of a text and spaces, and the header of a message of Ann Lee's or another's to Bob Ray: its conference, who it
# is from, and its activity, E1h or E2h, in octal.
block() {
    printf '%-128s' "$1"
}

message() {
    printf ' %-7s%-8s%-5s%-25s%-25s%-25s%-12s%-8s%-6s' "$1" 09-09-01 01:46 'BOB RAY' "$2" Hello '' 0 2
    printf '%b\0\0\001\0 ' "\\0$3"
    printf 'Hi\343%125s' ''
}

# The board of the examples with one message, and a reply packet with one message that is posted and three that are
# refused.
prepare() {
    cp -R "$samples" "$work/shelf"
    {
        door init setup.txt && door enroll 'Ann Lee' n all && door enroll 'Bob Ray' - 0 &&
            door enroll 'Sam Sysop' n all && door enroll 'Cy Day' - 0 && door import 0 hello.txt
    } >/dev/null || fail 'the board was not made'
    {
        block TESTBBS
        message 0 'ANN LEE' 341
        message 0 'ANN LEE' 342
        message 0 ZED 341
        message 5 'ANN LEE' 341
    } >"$work/shelf/four"
    mv "$work/board" "$work/before"
    mv "$work/shelf" "$work/files"
}

# Puts the board and the shelf back.
put_back() {
    rm -rf -- "$work/board" "$work/shelf" "$work/refused"
    cp -R "$work/before" "$work/board"
    cp -R "$work/files" "$work/shelf"
}

# Whether the board's data files are those before the command, once they are recovered.
is_before() {
    door check >/dev/null || fail "check ends with status $?"
    diff -rq -x JOURNAL.DAT -x LOCK "$work/board" "$work/before" >/dev/null
}

# Whether the board is the one after the command, by what `check` says, since its moments are those of each run.
is_after() {
    door check >"$work/checked" || fail "check ends with status $?"
    cmp -s "$work/checked" "$work/after"
}

# Refuses each request of a command in turn.
refuse_each() {
    put_back
    door "$@" >"$work/whole" || fail "$1 failed with status $?"
    door check >"$work/after" || fail "check ends with status $?"
    request=$((1 - step))
    tried=0
    starved=0
    faults=0
    whole=0
    while :; do
        request=$((request + step))
        put_back
        REFUSE=$request REFUSED=$work/refused LD_PRELOAD=$work/refuse.so \
            "$program" "$work/board" "$work/shelf" "$@" >"$work/said" 2>/dev/null
        status=$?
        [ -e "$work/refused" ] || break
        tried=$((tried + 1))
        [ "$status" -eq 0 ] || [ ! -s "$work/said" ] || fail "$1 without request $request says $(cat "$work/said")"
        case $status in
        0)
            whole=$((whole + 1))
            cmp -s "$work/said" "$work/whole" || fail "$1 without request $request says $(cat "$work/said")"
            is_after || fail "$1 without request $request ends with 0 and leaves another board"
            ;;
        7)
            starved=$((starved + 1))
            is_before || fail "$1 without request $request ends with 7 and leaves another board"
            ;;
        4 | 5)
            faults=$((faults + 1))
            is_before || is_after ||
                fail "$1 without request $request ends with $status and leaves another board"
            ;;
        *) fail "$1 without request $request ends with $status" ;;
        esac
    done
    printf '%s: %s requests for memory refused in turn: %s ended with 7, %s with 4 or 5, %s asked again\n' \
        "$1" "$tried" "$starved" "$faults" "$whole"
}

build_program
prepare
refuse_each export 'Ann Lee' 10 out
refuse_each upload 'Ann Lee' four
