#!/bin/sh
# Kills runs that enroll a user (SIGKILL), each after a random few milliseconds, and checks the board after each: it
# must be the one before the run or the one after it, and the one after it where the run's reply was printed. Says
# how many were killed before and after the change. .ci/run kills 25. usage: bench/kill.sh [TIMES]
# PROGRAM may name the program.

times=${1:-200}
# shellcheck disable=SC2034 # how often best times a command
runs=1
top=$(dirname -- "$(readlink -f -- "$0")")/..
# shellcheck source=/dev/null
. "$top/bench/best.sh"
program=${PROGRAM:-$top/.build/qwkdoor}
shelf=$top/crates/qwkdoor/data/shelf
work=$(mktemp -d) || exit 1
trap 'rm -rf -- "$work"' EXIT
trap 'exit 1' HUP INT TERM
users=0
killed_before=0
killed_after=0
ended=0
printed=0
wrong=0

door() {
    "$program" "$work/data" "$shelf" "$@"
}

complain() {
    printf 'WRONG: %s\n' "$1"
    wrong=$((wrong + 1))
}

# What `check` says last of so many users: the new board has 3,191 bytes, and each user a record of 87 bytes and
# three of 16.
counts() {
    printf '%s users, 0 uploads, %s bytes' "$1" $((3191 + 135 * $1))
}

# Enrolls a user of this name in a run that is killed after so many seconds, unless it has ended. It is started
# without `door`, whose shell would be killed in its place.
enroll_and_kill() {
    : >"$work/said"
    "$program" "$work/data" "$shelf" enroll "$1" n all >"$work/said" 2>/dev/null </dev/null &
    run=$!
    sleep "$2"
    kill -KILL "$run" 2>/dev/null
    wait "$run" 2>/dev/null
    status=$?
}

# Looks at what a run left that was to enroll a user of this name behind the others.
look() {
    reply="user $((users + 1)) $1"
    said=$(cat "$work/said")
    case $said in
    '' | "$reply") ;;
    *) complain "$1: the run printed $said" ;;
    esac
    door check >"$work/checked" || complain "$1: check ends with status $?"
    found=$(tail -n 1 "$work/checked")
    if [ "$found" = "$(counts $((users + 1)))" ]; then
        users=$((users + 1))
        count_after
    elif [ "$found" != "$(counts "$users")" ]; then
        complain "$1: another board is found: $found"
    elif [ -n "$said" ] || [ "$status" -eq 0 ]; then
        complain "$1: the board before is found, and the run printed: $said"
    else
        killed_before=$((killed_before + 1))
    fi
}

# Counts a run whose user is enrolled.
count_after() {
    if [ "$status" -eq 0 ]; then
        ended=$((ended + 1))
        [ -n "$said" ] || complain 'a run ended and printed nothing'
    else
        killed_after=$((killed_after + 1))
        [ -z "$said" ] || printed=$((printed + 1))
    fi
}

build_program
door init setup.txt || exit 1
taken=$(best door enroll 'User 000' n all) || exit 1
users=1
awk -v times="$times" -v taken="$taken" -v seed="$$" 'BEGIN {
    srand(seed)
    for (turn = 0; turn < times; turn++)
        printf "%.4f\n", rand() * taken * 1.2
}' >"$work/delays"

turn=0
while read -r delay; do
    turn=$((turn + 1))
    name=$(printf 'User %03d' "$turn")
    enroll_and_kill "$name" "$delay"
    look "$name"
done <"$work/delays"

printf 'a run that enrolls: %s s\n' "$taken"
printf '%s runs: %s killed before the change, %s after it (%s had printed their reply), %s ended before the kill\n' \
    "$turn" "$killed_before" "$killed_after" "$printed" "$ended"
door check | tail -n 1
[ "$wrong" -eq 0 ]
