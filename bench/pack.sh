#!/bin/sh
# Packs a conference of 9,999 messages of 2,000 bytes, of which every second is deleted, on a board in real folders, and
# says how long the best of three runs takes beside `sha256sum` of the conference's files before it, and how many bytes a
# run writes. Then it packs it again, which writes nothing, and looks at what is offered. Where JamNNTPd is there (Debian's
# package jamnntpd), with perl, it shows a small base before and after a pack, each message as it was; else it says so.
# It is no part of the gate. usage: bench/pack.sh
# PROGRAM may name the program.

top=$(dirname -- "$(readlink -f -- "$0")")/..
# shellcheck disable=SC2034 # how often best times a command
runs=1
# shellcheck source=/dev/null
. "$top/bench/best.sh"
program=${PROGRAM:-$top/.build/qwkdoor}
work=$(mktemp -d) || exit 1
work=$(readlink -f -- "$work")
shelf=$work/shelf
server=
trap clean EXIT
trap 'exit 1' HUP INT TERM

clean() {
    [ -z "$server" ] || kill "$server" 2>/dev/null
    rm -rf -- "$work"
}

door() {
    "$program" "$work/data" "$shelf" "$@"
}

# A sheet of so many messages, each with one line of so many bytes with its end.
sheet() {
    awk -v count="$1" -v bytes="$2" 'BEGIN {
        for (i = 1; i < bytes; i++) {
            line = line "x"
        }
        for (i = 0; i < count; i++) {
            printf "From: Bob Ray\nTo: All\nSubject: Hello %d\n\n%s\n.\n", i, line
        }
    }'
}

# A new board.
renew() {
    rm -rf -- "$work/data"
    door init setup.txt >/dev/null || fail "init failed with status $?"
}

# Begins anew with the board in the folder `before`.
again() {
    rm -rf -- "$work/data"
    cp -R -- "$work/before" "$work/data" || exit 1
}

# How many bytes a run writes that packs.
written() {
    # shellcheck disable=SC2016 # the inner shell is to expand it
    sh -c '"$@" >/dev/null; sed -n "s/^wchar: //p" "/proc/$$/io"' sh "$program" "$work/data" "$shelf" pack 0
}

mkdir -p "$shelf" || exit 1
cp "$top/crates/qwkdoor/data/shelf/setup.txt" "$shelf" || exit 1
build_program

renew
[ "$(door enroll 'Sam Sysop' n all)" = 'user 1 Sam Sysop' ] || fail 'enroll failed'
for count in 2000 2000 2000 2000 1999; do
    sheet "$count" 2000 >"$shelf/sheet"
    [ "$(door import 0 sheet)" = "imported $count into 0" ] || fail 'import failed'
done
awk 'BEGIN { for (i = 2; i < 10000; i += 2) print "kill 0 " i }' >"$shelf/kills"
door batch kills >/dev/null || fail "kill failed with status $?"
rm -rf -- "$work/before"
mv -- "$work/data" "$work/before"

least=
for _ in 1 2 3; do
    again
    taken=$(best door pack 0) || fail "pack failed with status $?"
    least=$(printf '%s\n%s\n' "${least:-$taken}" "$taken" | sort -n | head -n 1)
done
again
bytes=$(written)
[ "$(door check | sed -n 2p)" = '0 GENERAL: 9999 slots, 5000 live' ] || fail 'WRONG: check after a pack'
[ "$(door pack 0)" = 'packed 0: 0' ] || fail 'WRONG: a second pack'
idle=$(best door pack 0) || exit 1
[ "$(door export 'Sam Sysop' 2000 out)" = 'packet 1: 2000 messages' ] || fail 'WRONG: export after a pack'
door read out 2000 | grep -q -x 'Number: 3999' || fail 'WRONG: the 2,000th message after a pack has another number'
hashing=$(best sha256sum "$work"/before/C00.*) || exit 1
awk -v taken="$least" -v idle="$idle" -v hashing="$hashing" -v bytes="$bytes" -v files="$(cat "$work"/before/C00.* | wc -c)" 'BEGIN {
    printf "pack of 9999 messages, 4999 deleted: %.3f s, again %.3f s, sha256sum of the %d bytes of the files %.3f s, %d bytes written\n", taken, idle, files, hashing, bytes
    if (taken > 3 * hashing) print "pack: it took more than 3 times as long as sha256sum"
}'
row 'pack of 9999 messages, 4999 deleted' "$least" - "$hashing"

for tool in jamnntpd perl; do
    if ! command -v "$tool" >/dev/null; then
        printf 'pack: %s is missing, so no packed base is opened by another tool\n' "$tool"
        exit 0
    fi
done

# Sends the lines of standard input to the news server, and prints what it answers until it closes the connection.
send() {
    perl -MIO::Socket::INET -e '
        my $server;
        for (1 .. 50) {
            $server = IO::Socket::INET->new(PeerAddr => "127.0.0.1", PeerPort => $ARGV[0]) and last;
            select undef, undef, undef, 0.1;
        }
        $server or die "no server";
        alarm 60;
        print $server join("\r\n", map { chomp; $_ } <STDIN>), "\r\n";
        print while <$server>;' "$1"
}

# The lines that the news server has of each message of the base: number, subject and sender.
shown() {
    for ending in JHR JDX JDT JLR; do
        cp -- "$work/data/C00.$ending" "$work/bases/test.$(printf '%s' "$ending" | tr '[:upper:]' '[:lower:]')" || exit 1
    done
    port=$(perl -MIO::Socket::INET -e 'print IO::Socket::INET->new(Listen => 1, LocalAddr => "127.0.0.1")->sockport') || exit 1
    jamnntpd -p "$port" -g "$work/groups" -a "$work/allow" -u "$work/users" -x /etc/jamnntpd.xlat \
        -l "$work/news" -noecholog >/dev/null 2>&1 </dev/null &
    server=$!
    printf 'GROUP TEST\nXOVER 1-999\nQUIT\n' | send "$port" | tr -d '\r' | awk -F '\t' 'NF > 2 { print $1 "\t" $2 "\t" $3 }'
    kill "$server"
    server=
}

mkdir "$work/bases" || exit 1
printf 'TEST A 2:200/108.7 %s\n' "$work/bases/test" >"$work/groups"
echo '127.0.0.1 A A' >"$work/allow"
: >"$work/users"
renew
sheet 12 40 >"$shelf/sheet"
[ "$(door import 0 sheet)" = 'imported 12 into 0' ] || fail 'import failed'
# It shows every other message of a base, so some of either half are deleted.
for number in 3 4 7 8 11 12; do
    door kill 0 "$number" >/dev/null || fail 'kill failed'
done
shown >"$work/first"
[ -s "$work/first" ] || fail 'JamNNTPd shows no message before the pack'
[ "$(door pack 0)" = 'packed 0: 6' ] || fail 'WRONG: the pack of a small base'
shown >"$work/second"
diff "$work/first" "$work/second" || fail 'WRONG: JamNNTPd shows the lines with > after the pack in place of those with <'
echo 'JamNNTPd shows a packed base as before.'
