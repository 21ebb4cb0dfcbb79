#!/bin/sh
# Shows what the folders and the clock do that no clause says: a pipe in the place of a file ends a run at once, the
# packet's moment is the clock's, and, by strace where that is there, a file of the shelf is opened once, however many
# pieces it is read in. usage: bench/shelf.sh    PROGRAM may name the program.

top=$(dirname -- "$(readlink -f -- "$0")")/..
# shellcheck source=/dev/null
. "$top/bench/best.sh"
program=${PROGRAM:-$top/.build/qwkdoor}
work=$(mktemp -d) || exit 1
work=$(readlink -f -- "$work")
trap 'rm -rf -- "$work"' EXIT
trap 'exit 1' HUP INT TERM

door() {
    "$program" "$work/data" "$work/shelf" "$@"
}

# Runs a command that is to end with this status within ten seconds.
expect_end() {
    wanted=$1
    shift
    timeout 10 "$program" "$work/data" "$work/shelf" "$@" >"$work/said" 2>/dev/null
    got=$?
    [ "$got" -eq "$wanted" ] || fail "$* with a pipe in the place of a file ends with $got, wanted $wanted"
}

build_program
cp -R "$top/crates/qwkdoor/data/shelf" "$work/shelf" || exit 1
door init setup.txt >/dev/null || fail 'the board was not made'
door enroll 'Ann Lee' n all >/dev/null || fail 'a user was not enrolled'

# The sixth line has the moment at which the packet was made, in UTC.
before=$(date -u +%m-%d-%Y,%H:%M)
door export 'Ann Lee' 10 now >/dev/null || fail 'the packet was not made'
after=$(date -u +%m-%d-%Y,%H:%M)
found=$(sed -n '6s/:[0-9][0-9].$//p' "$work/shelf/now/CONTROL.DAT")
[ "$found" = "$before" ] || [ "$found" = "$after" ] || fail "the packet's moment is $found, and the clock's $after"
echo 'the moment of a packet is the clock'\''s'

mkdir "$work/shelf/pipes" || exit 1
mkfifo "$work/shelf/pipe" "$work/shelf/pipes/CONTROL.DAT" || fail 'there are no pipes'
expect_end 5 list pipe
expect_end 5 scan pipe
expect_end 5 read pipes
expect_end 5 export 'Ann Lee' 10 pipes
expect_end 5 import 0 pipe
for file in LEDGER.DAT C00.JHR JOURNAL.DAT LOCK; do
    mv "$work/data/$file" "$work/kept" && mkfifo "$work/data/$file" || exit 1
    expect_end 4 check
    mv "$work/kept" "$work/data/$file" || exit 1
done
echo 'a pipe in the place of a file ends the run at once'

if ! command -v strace >/dev/null || ! strace -qq -o "$work/probe" true 2>/dev/null; then
    echo 'shelf: strace is missing, or may not trace here, so no opens are shown'
    exit 0
fi
LC_ALL=C awk 'BEGIN {
    printf "%-128s", "Produced by qwkdoor, packet 1"
    for (number = 1; number <= 4000; number++) {
        printf " %-7d09-09-0101:46%-25s%-25s%-25s%12s", number, "ALL", "BOB RAY", "Hello", ""
        printf "%-8s%-6s%c%c%c%c%c ", "0", "2", 225, 0, 0, 1, 0
        printf "First line%c%117s", 227, ""
    }
}' >"$work/shelf/packet"
for command in list scan; do
    strace -qq -y -s 0 -o "$work/calls" -e trace=open,openat,read,pread64 \
        "$program" "$work/data" "$work/shelf" "$command" packet >/dev/null || fail "$command failed"
    opens=$(grep -c '^open.*shelf/packet"' "$work/calls")
    reads=$(grep -c '^p*read.*shelf/packet>' "$work/calls")
    [ "$reads" -gt 3 ] || fail "$command reads the packet in $reads pieces alone, so that its opens show nothing"
    [ "$opens" -eq 1 ] || fail "$command opens the packet $opens times for $reads reads"
    printf '%s: a file is opened once for %s reads\n' "$command" "$reads"
done
