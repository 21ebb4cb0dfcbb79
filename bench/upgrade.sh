#!/bin/sh
# Migrates the board that program 1.0 left, bench/board-1.0, in runs of `check` that are killed (SIGKILL), each after a
# random few hundredths of a second, on a copy of its own: the ledger is the one of 1.0 or the one of today then, the next
# `check` says what it said on 1.0 but for the size, and the files of the conferences are as they were, byte for byte.
# Says how many were killed before and after. .ci/run kills 10. usage: bench/upgrade.sh [TIMES]
# PROGRAM may name the program.

times=${1:-100}
top=$(dirname -- "$(readlink -f -- "$0")")/..
program=${PROGRAM:-$top/.build/qwkdoor}
old=$top/bench/board-1.0
shelf=$top/crates/qwkdoor/data/shelf
work=$(mktemp -d) || exit 1
trap 'rm -rf -- "$work"' EXIT
trap 'exit 1' HUP INT TERM
wrong=0
before=0
after=0

complain() {
    printf 'WRONG: %s\n' "$1"
    wrong=$((wrong + 1))
}

# A copy of the old board.
renew() {
    rm -rf -- "$work/data"
    mkdir -- "$work/data" && cp -- "$old"/* "$work/data" || exit 1
}

# The board is migrated, and nothing else of it changed. Program 1.0 said 9,766 bytes; each of the four users has 48 more.
look() {
    cat >"$work/wanted" <<'END'
board TESTBBS
0 GENERAL: 41 slots, 40 live
1 NETMAIL: 0 slots, 0 live
7 NEWS: 1 slots, 1 live
4 users, 1 uploads, 9958 bytes
END
    "$program" "$work/data" "$shelf" check >"$work/said" || complain "check ends with $?"
    cmp -s "$work/said" "$work/wanted" || complain "check says: $(cat "$work/said")"
    for file in "$old"/C*; do
        cmp -s "$file" "$work/data/${file##*/}" || complain "${file##*/} is another file"
    done
    [ "$(wc -c <"$work/data/LEDGER.DAT")" -eq 506 ] || complain 'the ledger has another length'
    cp -- "$work/data/LEDGER.DAT" "$work/now"
    [ -f "$work/ledger" ] || cp -- "$work/now" "$work/ledger"
    cmp -s "$work/ledger" "$work/now" || complain 'the ledger is another one'
}

renew
look
for packet in 'Ann Lee,2' 'Bob Ray,1' 'Cy Day,2'; do
    reply=$("$program" "$work/data" "$shelf" ack "${packet%,*}" "${packet#*,}")
    [ "$reply" = "acknowledged ${packet#*,}" ] || complain "the packet $packet says: $reply"
done
for _ in $(seq "$times"); do
    renew
    "$program" "$work/data" "$shelf" check >/dev/null 2>&1 </dev/null &
    run=$!
    sleep "$(awk -v seed="$run" 'BEGIN { srand(seed); printf "%.4f", rand() * 0.03 }')"
    kill -KILL "$run" 2>/dev/null
    wait "$run" 2>/dev/null
    if cmp -s "$old/LEDGER.DAT" "$work/data/LEDGER.DAT"; then
        before=$((before + 1))
    else
        after=$((after + 1))
    fi
    look
done
printf '%s killed with the old ledger, %s with the new one or later\n' "$before" "$after"
[ "$wrong" -eq 0 ]
