#!/bin/sh
# What the benches share. Those that call `best` set runs, how often a command is timed, and top, and read this file.

# Proves and builds the program, where PROGRAM doesn't name one that is to be run in its place.
build_program() {
    # shellcheck disable=SC2154 # those that call it set top
    [ -n "${PROGRAM:-}" ] || "$top/bin/qwkdoor" --build || exit 1
}

fail() {
    printf '%s\n' "$1" >&2
    exit 1
}

# The seconds of the clock.
now() {
    date +%s.%N
}

# The least of the times in seconds that a command takes, its output thrown away.
best() {
    least=
    turn=0
    while [ "$turn" -lt "${runs:-3}" ]; do
        before=$(now)
        "$@" >/dev/null || return 1
        after=$(now)
        least=$(awk -v a="$before" -v b="$after" -v least="$least" 'BEGIN {
            taken = b - a
            print (least == "" || taken < least) ? taken : least
        }')
        turn=$((turn + 1))
    done
    printf '%s\n' "$least"
}

# Adds how long a command took, as seconds, to a file.
timed() {
    file=$1
    shift
    before=$(now)
    "$@" >/dev/null || fail "$2 failed with status $?"
    awk -v a="$before" -v b="$(now)" 'BEGIN { printf "%.3f\n", b - a }' >>"$file"
}

# The least of the numbers in a file, a line each.
least() {
    sort -n "$1" | head -n 1
}

# The seconds of one turn, from those of a run, those of a run with some turns more, and how many more these are.
each() {
    awk -v shorter="$1" -v longer="$2" -v turns="$3" 'BEGIN { print (longer - shorter) / turns }'
}

# Adds a row to the table of bench/all.sh, where TABLE names its file: the work, and the seconds of our program, of
# `cat` and of `sha256sum`, or - where there are none.
row() {
    [ -z "${TABLE:-}" ] || printf '%s\t%s\t%s\t%s\n' "$1" "$2" "$3" "$4" >>"$TABLE"
}
