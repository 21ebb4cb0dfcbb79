#!/bin/sh
# Imports sheets of 2,500, 5,000 and 9,999 messages of 200 bytes, each into three conferences that are empty, on a board
# in real folders, and says how long the best of three runs takes beside `sha256sum` of the files that it wrote, and how
# many bytes were written in all. Then it imports long messages until the files would be too long. It is no part of the
# gate. usage: bench/import.sh

top=$(dirname -- "$(readlink -f -- "$0")")/..
# shellcheck disable=SC2034 # how often best times a command
runs=1
# shellcheck source=/dev/null
. "$top/bench/best.sh"
program=$top/.build/qwkdoor
work=$(mktemp -d) || exit 1
shelf=$work/shelf
trap 'rm -rf -- "$work"' EXIT
trap 'exit 1' HUP INT TERM

door() {
    "$program" "$work/data" "$shelf" "$@"
}

# A sheet of so many messages, each with one line of so many bytes with its end.
sheet() {
    awk -v count="$1" -v bytes="$2" 'BEGIN {
        for (i = 1; i < bytes; i++) {
            line = line "x"
        }
        for (i = 0; i < count; i++) {
            printf "From: Bob Ray\nTo: All\nSubject: Hello\n\n%s\n.\n", line
        }
    }'
}

# A new board.
renew() {
    rm -rf -- "$work/data"
    door init setup.txt >/dev/null || fail "init failed with status $?"
}

# How many bytes a run writes that imports a sheet.
written() {
    # shellcheck disable=SC2016 # the inner shell is to expand it
    sh -c '"$@" >/dev/null; sed -n "s/^wchar: //p" "/proc/$$/io"' sh "$program" "$work/data" "$shelf" import "$1" "$2"
}

mkdir -p "$shelf" || exit 1
cp "$top/crates/qwkdoor/data/shelf/setup.txt" "$shelf" || exit 1
"$top/bin/qwkdoor" --build || exit 1
"$top/bin/qwkdoor" "$work/data" "$shelf" init setup.txt >/dev/null || fail "init failed with status $?"

for count in 2500 5000 9999; do
    sheet "$count" 200 >"$shelf/sheet"
    renew
    least=
    for conference in 0 1 7; do
        taken=$(best door import "$conference" sheet) || fail "import failed with status $?"
        least=$(printf '%s\n%s\n' "${least:-$taken}" "$taken" | sort -n | head -n 1)
    done
    hashing=$(best sha256sum "$work"/data/C00.*) || exit 1
    renew
    bytes=$(written 0 sheet)
    awk -v count="$count" -v taken="$least" -v hashing="$hashing" -v bytes="$bytes" \
        -v files="$(cat "$work"/data/C00.* | wc -c)" 'BEGIN {
        printf "%d messages: %.3f s, sha256sum of the %d bytes of their files %.3f s, %d bytes written\n", count, taken, files, hashing, bytes
    }'
    row "import of $count messages" "$least" - "$hashing"
done

# A message of 16,384 bytes takes 16,525 with its header and its index record, and the digits of its number: with 2,295
# of them the files of a new board, 3,191 bytes, would have 37,936,139.
sheet 255 16384 >"$shelf/long"
renew
for part in 1 2 3 4 5 6 7 8; do
    [ "$(door import 0 long)" = 'imported 255 into 0' ] || fail "import $part failed"
done
reply=$(door import 0 long)
[ "$reply" = 'refused size 37936139' ] || fail "one import more says: $reply"
printf '%s\n' "$reply"
