#!/bin/sh
# Makes up 1,250, 2,500 and 5,000 messages, each into an empty board of three conferences in real folders, and says how
# long the best of some runs takes beside `sha256sum` of the files that it wrote. Then it looks that two boards of the
# same seed have the same texts. It is no part of the gate. usage: bench/sample.sh [RUNS]

runs=${1:-3}
top=$(dirname -- "$(readlink -f -- "$0")")/..
# shellcheck source=/dev/null
. "$top/bench/best.sh"
program=$top/.build/qwkdoor
work=$(mktemp -d) || exit 1
trap 'rm -rf -- "$work"' EXIT
trap 'exit 1' HUP INT TERM

shelf=$top/crates/qwkdoor/data/shelf
"$top/bin/qwkdoor" --build || exit 1
"$top/bin/qwkdoor" "$work/before" "$shelf" init setup.txt >/dev/null || fail "init failed with status $?"
"$program" "$work/before" "$shelf" enroll 'Sam Sysop' n all >/dev/null || fail "enroll failed with status $?"

printf '%-16s %10s %14s %10s\n' "the best of $runs" 'sample (s)' 'sha256sum (s)' 'bytes'
for count in 1250 2500 5000; do
    rm -f -- "$work/sampled" "$work/hashed"
    run=0
    while [ "$run" -lt "$runs" ]; do
        rm -rf -- "$work/data"
        cp -R "$work/before" "$work/data"
        timed "$work/sampled" "$program" "$work/data" "$shelf" sample 7 "$count"
        timed "$work/hashed" sha256sum "$work/data"/C0*
        run=$((run + 1))
    done
    printf '%-16s %10s %14s %10s\n' "$count messages" "$(least "$work/sampled")" "$(least "$work/hashed")" "$(cat "$work/data"/C0* | wc -c)"
    row "sample of $count messages" "$(least "$work/sampled")" - "$(least "$work/hashed")"
done

rm -rf -- "$work/again"
cp -R "$work/before" "$work/again"
"$program" "$work/again" "$shelf" sample 7 5000 >/dev/null || fail "sample failed with status $?"
cmp -s "$work/data/C00.JDT" "$work/again/C00.JDT" || fail 'the same seed makes other texts'
