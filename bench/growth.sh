#!/bin/sh
# Times commands on boards and files of half a size and of the whole size, and says how many times as long the whole
# takes: about twice where the time grows as the size, four times where it grows as its square. It fails where that is
# more than 2.6. The files lie in memory where /dev/shm is there, so that a disk's syncs hide nothing. It is no part of
# the gate. usage: bench/growth.sh [RUNS]    PROGRAM may name the program.

runs=${1:-3}
top=$(dirname -- "$(readlink -f -- "$0")")/..
# shellcheck source=/dev/null
. "$top/bench/best.sh"
program=${PROGRAM:-$top/.build/qwkdoor}
work=$(mktemp -d -p /dev/shm 2>/dev/null) || work=$(mktemp -d) || exit 1
trap 'rm -rf -- "$work"' EXIT
trap 'exit 1' HUP INT TERM
steep=0

# Runs a command on the board and the shelf of a size, half or whole.
door() {
    size=$1
    shift
    "$program" "$work/$size.board" "$work/$size" "$@"
}

# Runs a command on those of a size whose reply is to end with this line.
expect() {
    wanted=$1
    shift
    reply=$(door "$@" | tail -n 1) || fail "$2 failed"
    [ "$reply" = "$wanted" ] || fail "$* says: $reply"
}

# New boards of so many conferences, numbered from 0, each with one user.
renew() {
    for size in half whole; do
        rm -rf -- "$work/$size.board"
        awk -v count="$1" 'BEGIN {
            print "board: Growth\ncity: Springfield\nphone: 555-0100\nsysop: Sam Sysop\nbbsid: GROWTH\nserial: 1\nzones:"
            for (i = 0; i < count; i++)
                printf "conference: %d local - C%d\n", i, i
        }' >"$work/$size/setup"
        expect "made $1 conferences" "$size" init setup
        expect 'user 1 Ann Lee' "$size" enroll 'Ann Lee' - all
    done
}

# A sheet of so many messages, each with one line of so many bytes with its end. Each answers the one before it
# (answers), or all have one id and answer it (one), or neither.
sheet() {
    awk -v count="$1" -v bytes="$2" -v kind="${3:-}" 'BEGIN {
        for (i = 1; i < bytes; i++)
            line = line "x"
        for (i = 1; i <= count; i++) {
            printf "From: Ann Lee\nTo: Bob Ray\nSubject: Hello\n"
            if (kind == "answers" && i > 1)
                printf "Reply: 0.%d.GROWTH\n", i - 1
            if (kind == "one")
                printf "Msgid: one\nReply: one\n"
            printf "\n%s\n.\n", line
        }
    }'
}

# The least of the times that a command takes on the board and the shelf of a size, each time on a copy of the board.
best_of() {
    mv "$work/$1.board" "$work/kept"
    : >"$work/times"
    run=0
    while [ "$run" -lt "$runs" ]; do
        cp -R "$work/kept" "$work/$1.board"
        timed "$work/times" door "$@"
        rm -rf -- "$work/$1.board"
        run=$((run + 1))
    done
    mv "$work/kept" "$work/$1.board"
    least "$work/times"
}

# Times a command, named for the table, on the boards and shelves of both sizes.
grow() {
    named=$1
    shift
    half=$(best_of half "$@") || exit 1
    whole=$(best_of whole "$@") || exit 1
    ratio=$(awk -v half="$half" -v whole="$whole" 'BEGIN { printf "%.2f", whole / half }')
    printf '%-50s %9s %9s %6s\n' "$named" "$half" "$whole" "$ratio"
    [ -z "${GROWTH:-}" ] || printf '%s\t%s\t%s\t%s\n' "$named" "$half" "$whole" "$ratio" >>"$GROWTH"
    if awk -v ratio="$ratio" 'BEGIN { exit ratio <= 2.6 }'; then
        printf '%s: the whole takes %s times as long as the half\n' "$named" "$ratio" >&2
        steep=1
    fi
}

# Gives the board of a size so many upload records, of 42 bytes each. It has none yet.
add_records() {
    ledger=$work/$1.board/LEDGER.DAT
    # shellcheck disable=SC2059 # the format is the bytes
    printf "$(awk -v count="$2" 'BEGIN {
        printf "\\%03o\\%03o\\%03o\\000", count % 256, int(count / 256) % 256, int(count / 65536)
    }')" | dd of="$ledger" bs=1 seek=12 conv=notrunc 2>/dev/null || fail 'the ledger was not written'
    LC_ALL=C awk -v count="$2" 'BEGIN {
        for (i = 0; i < count; i++)
            printf "%c%c%032d%c%c%c%c%c%c%c%c", 1, 0, i, 1, 0, 0, 0, 0, 0, 0, 0
    }' >>"$ledger"
}

# A packet of so many messages of two blocks.
packet() {
    LC_ALL=C awk -v count="$1" 'BEGIN {
        printf "%-128s", "Produced by qwkdoor, packet 1"
        for (number = 1; number <= count; number++) {
            printf " %-7d09-09-0101:46%-25s%-25s%-25s%12s", number, "ALL", "BOB RAY", "Hello", ""
            printf "%-8s%-6s%c%c%c%c%c ", "0", "2", 225, 0, 0, 1, 0
            printf "First line%c%117s", 227, ""
        }
    }'
}

mkdir -p "$work/half" "$work/whole" || exit 1
build_program
printf '%-50s %9s %9s %6s\n' "the best of $runs" 'half (s)' 'whole (s)' ratio

renew 1
sheet 4999 200 >"$work/half/sheet"
sheet 9998 200 >"$work/whole/sheet"
grow 'import of 4,999 and 9,998 messages' import 0 sheet

for count in 2000 4000; do
    [ "$count" -eq 2000 ] && size=half || size=whole
    sheet "$count" 3 >"$work/$size/small"
    expect 'packet 1: 0 messages' "$size" export 'Ann Lee' 1 out
    expect "composed $count, $count in R.MSG" "$size" compose out 0 small R.MSG
done
grow 'upload of 2,000 and 4,000 messages' upload 'Ann Lee' R.MSG

add_records half 50000
add_records whole 100000
expect '1 users, 100000 uploads, 4201176 bytes' whole check
grow 'check of 50,000 and 100,000 upload records' check

for kind in answers one; do
    renew 1
    sheet 4999 3 "$kind" >"$work/half/sheet"
    sheet 9998 3 "$kind" >"$work/whole/sheet"
    expect 'imported 4999 into 0' half import 0 sheet
    expect 'imported 9998 into 0' whole import 0 sheet
    case $kind in
    answers) grow 'check of 4,999 and 9,998 answers in a chain' check ;;
    one) grow 'check of 4,999 and 9,998 messages of one id' check ;;
    esac
done

renew 64
for count in 249 499; do
    [ "$count" -eq 249 ] && size=half || size=whole
    awk -v count="$count" 'BEGIN {
        for (i = 1; i <= count; i++)
            printf "enroll \"User %d\" n all\n", i
    }' >"$work/$size/lines"
done
grow 'enrolling 249 and 499 users in a batch' batch lines

sheet 31 16384 >"$work/whole/full"
awk 'BEGIN { for (i = 0; i < 64; i++) printf "import %d full\n", i }' >"$work/whole/lines"
cp "$work/whole/full" "$work/half/full"
head -n 32 "$work/whole/lines" >"$work/half/lines"
expect 'imported 31 into 31' half batch lines
expect 'imported 31 into 63' whole batch lines
grow 'check of 16 MB and 33 MB of messages' check

# Puts as many lines into a batch of each size, of the numbers from 1 on.
lines() {
    awk -v count="$1" -v form="$3" 'BEGIN { for (i = 1; i <= count; i++) { line = form; gsub(/#/, i, line); print line } }' >"$work/half/lines"
    awk -v count="$2" -v form="$3" 'BEGIN { for (i = 1; i <= count; i++) { line = form; gsub(/#/, i, line); print line } }' >"$work/whole/lines"
}

renew 1
sheet 5000 3 >"$work/half/sheet"
sheet 9999 3 >"$work/whole/sheet"
expect 'imported 5000 into 0' half import 0 sheet
expect 'imported 9999 into 0' whole import 0 sheet
lines 5000 9999 'kill 0 #'
grow 'deleting 5,000 and 9,999 messages in a batch' batch lines

lines 1000 2000 'export "Ann Lee" 1 out\nack "Ann Lee" #'
grow '1,000 and 2,000 acknowledgements in a batch' batch lines

renew 1
for size in half whole; do
    sheet 9000 3 >"$work/$size/sheet"
    sheet 1 3 >"$work/$size/small"
    expect 'imported 9000 into 0' "$size" import 0 sheet
done
lines 250 500 'import 0 small'
grow '250 and 500 imports of one into 9,000 in a batch' batch lines

packet 81919 >"$work/half/BIG"
packet 163839 >"$work/whole/BIG"
grow 'list of packets of 21 MB and 41.9 MB' list BIG

exit "$steep"
