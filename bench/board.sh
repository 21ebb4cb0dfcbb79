#!/bin/sh
# Enrolls 500 users on a board in real folders, one run each, and then checks it. Then checks a full board, of 64
# conferences and 33 MB. Times each, beside `sha256sum` of the board's files. Shows the peak of memory of that check, and
# of a check and an export of a board whose 33 MB are one conference. It is no part of the gate.
# usage: bench/board.sh [RUNS]

runs=${1:-3}
top=$(dirname -- "$(readlink -f -- "$0")")/..
# shellcheck source=/dev/null
. "$top/bench/best.sh"
program=$top/.build/qwkdoor
shelf=$top/crates/qwkdoor/data/shelf
work=$(mktemp -d) || exit 1
trap 'rm -rf -- "$work"' EXIT
trap 'exit 1' HUP INT TERM

door() {
    "$program" "$work/data" "$shelf" "$@"
}

# Enrolls the users from one number to another, and says so where one isn't.
enroll() {
    number=$1
    while [ "$number" -le "$2" ]; do
        name=$(printf 'User %03d' "$number")
        door enroll "$name" n all >"$work/reply" || return 1
        [ "$(cat "$work/reply")" = "user $number $name" ] || return 1
        number=$((number + 1))
    done
}

"$top/bin/qwkdoor" --build || exit 1
"$top/bin/qwkdoor" "$work/data" "$shelf" init setup.txt || fail "init failed with status $?"

first=$(runs=1 && best enroll 1 100) || fail 'a user was not enrolled'
middle=$(runs=1 && best enroll 101 400) || fail 'a user was not enrolled'
last=$(runs=1 && best enroll 401 500) || fail 'a user was not enrolled'
awk -v first="$first" -v middle="$middle" -v last="$last" 'BEGIN {
    printf "enrolling 500 users: %.3f s\n", first + middle + last
    printf "a run of the first 100: %.4f s, of the last 100: %.4f s\n", first / 100, last / 100
}'
row 'enrolling 500 users, a run each' \
    "$(awk -v first="$first" -v middle="$middle" -v last="$last" 'BEGIN { print first + middle + last }')" - -

# The new board has 3,191 bytes. Each user has a record of 87 bytes and three of 16.
door check >"$work/reply" || fail "check failed with status $?"
tail -n 1 "$work/reply"
[ "$(tail -n 1 "$work/reply")" = '500 users, 0 uploads, 70691 bytes' ] || fail 'the board is not as it should be'
[ "$(door enroll 'One More' - 0)" = 'refused users' ] || fail 'one user more was not refused'

# Times `check` of a board beside `sha256sum` of its files.
time_check() {
    hashing=-
    checking=$(best door check) || fail "check failed with status $?"
    printf 'check: %s s, the best of %s\n' "$checking" "$runs"
    if command -v sha256sum >/dev/null; then
        hashing=$(best sha256sum "$work"/data/*) || exit 1
        printf 'sha256sum of %s files: %s s\ncheck / sha256sum: %s\n' "$(find "$work/data" -type f | wc -l)" "$hashing" \
            "$(awk -v a="$checking" -v b="$hashing" 'BEGIN { printf "%.1f", a / b }')"
    fi
    row "check of $1" "$checking" - "$hashing"
}
time_check 'a board of 500 users'

# Shows the peak of memory of a command.
peak() {
    what=$1
    shift
    if [ -x /usr/bin/time ] && /usr/bin/time -f %M true 2>/dev/null; then
        printf 'peak of memory of %s: %s KiB\n' "$what" \
            "$(/usr/bin/time -f %M "$program" "$work/data" "$shelf" "$@" 2>&1 >/dev/null | tail -n 1)"
    else
        echo 'peak of memory: not measured, since /usr/bin/time is missing'
    fi
}

# A setup of 64 conferences, and a sheet of 31 messages with bodies as long as they may be.
shelf=$work/shelf
mkdir "$shelf" || exit 1
awk 'BEGIN {
    print "board: Full\ncity: Springfield\nphone: 555-0100\nsysop: Sam Sysop\nbbsid: FULL\nserial: 1\nzones:"
    for (i = 0; i < 64; i++) {
        printf "conference: %d local - C%d\n", i, i
    }
}' >"$shelf/setup.txt"
sheet() {
    awk -v count="$1" 'BEGIN {
        for (i = 1; i < 16384; i++) {
            line = line "x"
        }
        for (i = 0; i < count; i++) {
            printf "From: Bob Ray\nTo: All\nSubject: Hello\n\n%s\n.\n", line
        }
    }' >"$shelf/sheet"
}
sheet 31
rm -rf -- "$work/data"
door init setup.txt >/dev/null || fail "init failed with status $?"
number=0
while [ "$number" -lt 64 ]; do
    door import "$number" sheet >/dev/null || fail "import failed with status $?"
    number=$((number + 1))
done
door check | tail -n 1
time_check 'a full board'
peak 'a check of a full board' check

# The same in one conference, of 2,000 messages.
rm -rf -- "$work/data"
door init setup.txt >/dev/null || fail "init failed with status $?"
sheet 250
number=0
while [ "$number" -lt 8 ]; do
    door import 0 sheet >/dev/null || fail "import failed with status $?"
    number=$((number + 1))
done
door enroll 'Ann Lee' - all >/dev/null || fail "enroll failed with status $?"
peak 'a check of a full conference' check
peak 'an export of 2,000 messages' export 'Ann Lee' 2000 out
