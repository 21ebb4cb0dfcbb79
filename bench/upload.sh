#!/bin/sh
# Uploads a reply packet of 4,000 small messages to one conference of a board in real folders, and then the same packet
# again, which changes nothing. Says how long each takes, the best of some runs on copies of the board, beside
# `sha256sum` of the packet. It is no part of the gate. usage: bench/upload.sh [RUNS]

runs=${1:-3}
top=$(dirname -- "$(readlink -f -- "$0")")/..
# shellcheck source=/dev/null
. "$top/bench/best.sh"
program=$top/.build/qwkdoor
work=$(mktemp -d) || exit 1
shelf=$work/shelf
trap 'rm -rf -- "$work"' EXIT
trap 'exit 1' HUP INT TERM

door() {
    "$program" "$work/data" "$shelf" "$@"
}

# Runs a command that is to end its reply with this line.
expect() {
    wanted=$1
    shift
    reply=$(door "$@" | tail -n 1) || fail "$1 failed"
    [ "$reply" = "$wanted" ] || fail "$1 says: $reply"
}

mkdir -p "$shelf" || exit 1
printf 'board: Bench\ncity: Springfield\nphone: 555-0100\nsysop: Sam Sysop\nbbsid: BENCH\nserial: 1\nzones:\nconference: 0 local - GENERAL\n' >"$shelf/setup.txt"
"$top/bin/qwkdoor" --build || exit 1
"$top/bin/qwkdoor" "$work/data" "$shelf" init setup.txt >/dev/null || fail "init failed with status $?"
expect 'user 1 Ann Lee' enroll 'Ann Lee' - all
expect 'packet 1: 0 messages' export 'Ann Lee' 1 out
awk 'BEGIN { for (i = 0; i < 4000; i++) printf "From: Ann Lee\nTo: Bob Ray\nSubject: Hello\n\nHi\n.\n" }' >"$shelf/sheet"
expect 'composed 4000, 4000 in BENCH.MSG' compose out 0 sheet BENCH.MSG
cp -R "$work/data" "$work/before"

run=0
while [ "$run" -lt "$runs" ]; do
    rm -rf -- "$work/data"
    cp -R "$work/before" "$work/data"
    timed "$work/first" door upload 'Ann Lee' BENCH.MSG
    timed "$work/again" door upload 'Ann Lee' BENCH.MSG
    timed "$work/hashed" sha256sum "$shelf/BENCH.MSG"
    run=$((run + 1))
done
expect 'again posted 4000 refused 0' upload 'Ann Lee' BENCH.MSG

printf '%-16s %10s %12s\n' "the best of $runs" 'upload (s)' 'again (s)'
printf '%-16s %10s %12s\n' '4,000 messages' "$(least "$work/first")" "$(least "$work/again")"
printf 'sha256sum of the packet, %s bytes: %s s; the data files have %s bytes then\n' \
    "$(wc -c <"$shelf/BENCH.MSG")" "$(least "$work/hashed")" "$(cat "$work"/data/LEDGER.DAT "$work"/data/C* | wc -c)"
row 'upload of 4,000 messages' "$(least "$work/first")" - "$(least "$work/hashed")"
row 'the same upload again' "$(least "$work/again")" - "$(least "$work/hashed")"
