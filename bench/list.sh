#!/bin/sh
# Times `list` and `scan` on a packet of about 41 MB beside `cat` and `sha256sum` of the same file, in one run, and shows
# the peak of memory. It is no part of the gate. usage: bench/list.sh [RUNS]

runs=${1:-3}
top=$(dirname -- "$(readlink -f -- "$0")")/..
# shellcheck source=/dev/null
. "$top/bench/best.sh"
work=$(mktemp -d) || exit 1
trap 'rm -rf -- "$work"' EXIT
trap 'exit 1' HUP INT TERM
mkdir "$work/shelf"
big=$work/shelf/BIG

# A notice, and 163,839 messages of a header and one block of text: 41,942,912 bytes, 128 below the longest
# file that is read.
make_packet() {
    if command -v python3 >/dev/null; then
        python3 - "$big" <<'PROGRAM'
import sys

def fields(number):
    yield b" " + str(number).encode().ljust(7) + b"09-09-01" + b"01:46"
    yield b"ALL".ljust(25) + b"BOB RAY".ljust(25) + b"Hello".ljust(25) + b" " * 12
    yield b"0".ljust(8) + b"2".ljust(6) + b"\xe1" + b"\0\0" + b"\1\0" + b" "
    yield b"First line\xe3".ljust(128)

with open(sys.argv[1], "wb") as out:
    out.write(b"Produced by qwkdoor, packet 1".ljust(128))
    for number in range(1, 163840):
        out.write(b"".join(fields(number)))
PROGRAM
    else
        LC_ALL=C awk 'BEGIN {
            printf "%-128s", "Produced by qwkdoor, packet 1"
            for (number = 1; number < 163840; number++) {
                printf " %-7d09-09-0101:46%-25s%-25s%-25s%12s", number, "ALL", "BOB RAY", "Hello", ""
                printf "%-8s%-6s%c%c%c%c%c ", "0", "2", 225, 0, 0, 1, 0
                printf "First line%c%117s", 227, ""
            }
        }' >"$big"
    fi
}

list() {
    "$top/bin/qwkdoor" "$work/data" "$work/shelf" list BIG
}

scan() {
    "$top/bin/qwkdoor" "$work/data" "$work/shelf" scan BIG
}

"$top/bin/qwkdoor" --build || exit 1
make_packet
printf 'packet: %s bytes\n' "$(wc -c <"$big")"
# The first call reads the file into the system's memory.
list >"$work/reply" || fail "list failed with status $?"
printf 'reply: %s lines, %s bytes\n' "$(wc -l <"$work/reply")" "$(wc -c <"$work/reply")"
tail -n 1 "$work/reply"

[ "$(scan)" = '163839 messages' ] || fail 'the packet is not scanned as it should be'
listing=$(best list) || exit 1
scanning=$(best scan) || exit 1
copying=$(best cat "$big") || exit 1
printf 'list: %s s, the best of %s\nscan: %s s\ncat: %s s\nlist / cat: %s\n' "$listing" "$runs" "$scanning" "$copying" \
    "$(awk -v a="$listing" -v b="$copying" 'BEGIN { printf "%.1f", a / b }')"
hashing=-
if command -v sha256sum >/dev/null; then
    hashing=$(best sha256sum "$big") || exit 1
    printf 'sha256sum: %s s\nlist / sha256sum: %s\n' "$hashing" \
        "$(awk -v a="$listing" -v b="$hashing" 'BEGIN { printf "%.1f", a / b }')"
fi
row 'list of a packet of 41.9 MB' "$listing" "$copying" "$hashing"
row 'scan of a packet of 41.9 MB' "$scanning" "$copying" "$hashing"
if [ -x /usr/bin/time ] && /usr/bin/time -f %M true 2>/dev/null; then
    peak=$(/usr/bin/time -f %M "$top/bin/qwkdoor" "$work/data" "$work/shelf" list BIG 2>&1 >/dev/null)
    printf 'peak of memory: %s KiB\n' "$peak"
else
    echo 'peak of memory: not measured, since /usr/bin/time is missing'
fi
[ ! -e "$work/data" ] || fail 'list made the folder DATA'
