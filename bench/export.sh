#!/bin/sh
# Exports 2,000 messages of 1 KiB out of a conference of 9,999, and then nothing out of a full board, of 64 conferences
# and 33 MB, on boards in real folders. Says how long the best of some runs takes, beside `sha256sum` of the board's
# files, and how long MESSAGES.DAT is. It is no part of the gate. usage: bench/export.sh [RUNS]

runs=${1:-3}
top=$(dirname -- "$(readlink -f -- "$0")")/..
# shellcheck source=/dev/null
. "$top/bench/best.sh"
program=$top/.build/qwkdoor
work=$(mktemp -d) || exit 1
shelf=$work/shelf
trap 'rm -rf -- "$work"' EXIT
trap 'exit 1' HUP INT TERM

door() {
    "$program" "$work/data" "$shelf" "$@"
}

# Runs a command that is to give this reply.
expect() {
    wanted=$1
    shift
    reply=$(door "$@") || fail "$1 failed with status $?: $reply"
    [ "$reply" = "$wanted" ] || fail "$1 says: $reply"
}

# A sheet of so many messages, each with one line of so many bytes with its end.
sheet() {
    awk -v count="$1" -v bytes="$2" 'BEGIN {
        for (i = 1; i < bytes; i++) {
            line = line "x"
        }
        for (i = 0; i < count; i++) {
            printf "From: Bob Ray\nTo: All\nSubject: Hello\n\n%s\n.\n", line
        }
    }'
}

# A setup of 64 conferences.
setup() {
    awk 'BEGIN {
        print "board: Full\ncity: Springfield\nphone: 555-0100\nsysop: Sam Sysop\nbbsid: FULL\nserial: 1\nzones:"
        for (i = 0; i < 64; i++) {
            printf "conference: %d local - C%d\n", i, i
        }
    }'
}

# A new board, with one user.
renew() {
    rm -rf -- "$work/data"
    expect 'made 64 conferences' init setup.txt
    expect 'user 1 Ann Lee' enroll 'Ann Lee' - all
}

# A row of the table, from the texts of its columns.
columns() {
    printf '%-28s %12s %14s %14s %7s %20s\n' "$@"
}

# Times the export of what the user is offered, and prints its row.
time_export() {
    taken=$(best door export 'Ann Lee' 2000 out) || fail "export failed with status $?"
    hashing=$(best sha256sum "$work"/data/LEDGER.DAT "$work"/data/C*) || exit 1
    row "export of $1" "$taken" - "$hashing"
    columns "$1" "$taken" "$(cat "$work"/data/LEDGER.DAT "$work"/data/C* | wc -c)" "$hashing" \
        "$(awk -v a="$taken" -v b="$hashing" 'BEGIN { printf "%.1f", a / b }')" \
        "$(wc -c <"$shelf/out/MESSAGES.DAT")"
}

mkdir -p "$shelf" || exit 1
setup >"$shelf/setup.txt"
"$top/bin/qwkdoor" --build || exit 1
"$top/bin/qwkdoor" "$work/data" "$shelf" init setup.txt >/dev/null || fail "init failed with status $?"

columns "the best of $runs" 'export (s)' 'board (bytes)' 'sha256sum (s)' ratio 'MESSAGES.DAT (bytes)'

# A sheet may have 4 MiB, so there are three.
renew
sheet 3333 1024 >"$shelf/sheet"
for _ in 1 2 3; do
    expect 'imported 3333 into 0' import 0 sheet
done
expect 'packet 1: 2000 messages' export 'Ann Lee' 2000 out
time_export '2,000 messages of 9,999'

# The first packet has all messages, so that nothing is offered once it is acknowledged.
renew
sheet 31 16384 >"$shelf/sheet"
number=0
while [ "$number" -lt 64 ]; do
    expect "imported 31 into $number" import "$number" sheet
    number=$((number + 1))
done
expect 'packet 1: 1984 messages' export 'Ann Lee' 2000 out
expect 'acknowledged 1' ack 'Ann Lee' 1
expect 'packet 2: 0 messages' export 'Ann Lee' 2000 out
time_export 'no message of a full board'
