#!/bin/sh
# Tosses packets of 2,500 and 5,000 messages of 200 bytes, each with a msgid, into an echo conference that is empty, and
# one of 10,000 into a conference of 9,000, which has room for 999 of them, on a board in real folders. It says how long
# the best of three runs takes beside `sha256sum` of the packet, and how many bytes were written in all; where CrashMail
# is there (Debian's package crashmail), how long that takes for the packet of 5,000 and an empty base. Then it tosses the
# packets that CrashMail and ifmail write (Debian's packages crashmail and ifgate), each conference as it should come
# out, and ends with 1 where it sees anything else; without one of them it says so. It is no part of the gate.
# usage: bench/toss.sh
# PROGRAM may name the program.

top=$(dirname -- "$(readlink -f -- "$0")")/..
# shellcheck disable=SC2034 # how often best times a command
runs=1
# shellcheck source=/dev/null
. "$top/bench/best.sh"
program=${PROGRAM:-$top/.build/qwkdoor}
work=$(mktemp -d) || exit 1
work=$(readlink -f -- "$work")
shelf=$work/shelf
trap 'rm -rf -- "$work"' EXIT
trap 'exit 1' HUP INT TERM

door() {
    "$program" "$work/data" "$shelf" "$@"
}

# A new board, with these conferences.
renew() {
    rm -rf -- "$work/data"
    printf '%s\n' 'board: Test Board' 'city: Springfield' 'phone: 555-0100' 'sysop: Sam Sysop' 'bbsid: TESTBBS' \
        'serial: 1' 'zones:' "$@" >"$shelf/setup"
    door init setup >/dev/null || fail "init failed with status $?"
}

# A packet of so many messages of the area TEST, each with one line of 200 bytes with its end. What stands as ~ is NUL.
packet() {
    printf 'd~l~~~~~~~~~~~~~~~\002~2~2~~~~~~~~~~~\002~\002~~~~~~~~~~~~~~~~~~~~~' | tr '~' '\0'
    awk -v count="$1" 'BEGIN {
        for (i = 1; i < 200; i++) {
            line = line "x"
        }
        for (i = 1; i <= count; i++) {
            printf "\002~d~l~2~2~~~~~28 Nov 26  21:07:30~All~Joe Far~Hello~"
            printf "AREA:TEST\n\001MSGID: 2:50/100 %08x\n%s\n~", i, line
        }
        printf "~~"
    }' | tr '~\n' '\0\r'
}

# How many bytes a run writes that tosses a packet.
written() {
    # shellcheck disable=SC2016 # the inner shell is to expand it
    sh -c '"$@" >/dev/null; sed -n "s/^wchar: //p" "/proc/$$/io"' sh "$program" "$work/data" "$shelf" toss "$1"
}

# A command is to say these lines of standard input.
wants() {
    cat >"$work/wanted"
    door "$@" >"$work/said" || fail "$* ends with status $?"
    diff "$work/wanted" "$work/said" || fail "WRONG: $* says the lines with > in place of those with <"
}

# Tosses the packet onto the board in the folder `before` three times, says what the best of them took, and adds a row,
# both under a name of the work. `check` is to say this line of the conference then.
row_of() {
    work_done=$1
    wanted=$2
    least=
    for _ in 1 2 3; do
        rm -rf -- "$work/data"
        cp -R -- "$work/before" "$work/data" || exit 1
        taken=$(best door toss packet) || fail "toss failed with status $?"
        least=$(printf '%s\n%s\n' "${least:-$taken}" "$taken" | sort -n | head -n 1)
    done
    rm -rf -- "$work/data"
    cp -R -- "$work/before" "$work/data" || exit 1
    bytes=$(written packet)
    said=$(door check | sed -n 2p)
    [ "$said" = "$wanted" ] || fail "WRONG: after a $work_done check says: $said"
    hashing=$(best sha256sum "$shelf/packet") || exit 1
    awk -v work="$work_done" -v taken="$least" -v hashing="$hashing" -v bytes="$bytes" \
        -v size="$(wc -c <"$shelf/packet")" 'BEGIN {
        printf "%s: %.3f s, sha256sum of the %d bytes of the packet %.3f s, %d bytes written\n", work, taken, size, hashing, bytes
    }'
    row "$work_done" "$least" - "$hashing"
}

mkdir -p "$shelf" || exit 1
build_program

for count in 2500 5000; do
    packet "$count" >"$shelf/packet"
    renew 'conference: 0 echo - TEST'
    rm -rf -- "$work/before"
    mv -- "$work/data" "$work/before"
    row_of "toss of $count messages" "0 TEST: $count slots, $count live"
done
# What is there already isn't posted again.
[ "$(door toss packet | tail -n 1)" = 'posted 0 refused 5000' ] || fail 'WRONG: a packet that is tossed again'
cp -- "$shelf/packet" "$work/five"

packet 10000 >"$shelf/packet"
renew 'conference: 0 echo - TEST'
for words in '1 5000' '2 4000'; do
    # shellcheck disable=SC2086 # they are words
    door sample $words >/dev/null || fail "sample failed with status $?"
done
rm -rf -- "$work/before"
mv -- "$work/data" "$work/before"
row_of 'toss of 10000 messages behind 9000' '0 TEST: 9999 slots, 9999 live'

# Whether these tools are there. Without one of them it says that no packet of the first is tossed.
are_there() {
    for tool in "$@"; do
        if ! command -v "$tool" >/dev/null; then
            printf 'toss: %s is missing, so no packet of %s is tossed\n' "$tool" "$1"
            return 1
        fi
    done
}

# CrashMail, with a line on what becomes of duplicates, and these lines on the rest.
crash_setup() {
    rm -rf -- "$work/bases" "$work/spool" "$work/packets" "$work/dupes"
    mkdir "$work/bases" "$work/spool" "$work/packets" || exit 1
    cat >"$work/prefs" <<END
SYSOP "Sam Sysop"
LOGFILE "$work/log"
$1
LOOPMODE IGNORE
DEFAULTZONE 2
INBOUND "$work/spool"
OUTBOUND "$work/spool"
TEMPDIR "$work/spool"
CREATEPKTDIR "$work/spool"
PACKETDIR "$work/spool"
STATSFILE "$work/stats"
AKA 2:50/108
$2
END
}

crash() {
    crashmail SETTINGS "$work/prefs" TOSSDIR "$work/packets" NOSECURITY >"$work/crashed" ||
        fail "crashmail ends with status $?: $(cat "$work/crashed")"
}

# Writes a message with the text of standard input into a packet of its own. CrashMail goes by their moments, in seconds.
post() {
    cat >"$work/text"
    crashwrite DIR "$work/packets" TEXT "$work/text" FROMADDR 2:50/100 PKTTOADDR 2:50/108 "$@" >/dev/null ||
        fail 'crashwrite failed'
    sleep 1
}

# How long CrashMail takes for the packet of 5,000, the best of three, with this line on links. It looks for duplicates.
crash_best() {
    least=
    for _ in 1 2 3; do
        crash_setup "DUPEMODE BAD" "DUPEFILE \"$work/dupes\" 20000
AREA \"BAD\" 2:50/108 JAM \"$work/bases/bad\"
AREA \"TEST\" 2:50/108 JAM \"$work/bases/test\"
$1"
        cp -- "$work/five" "$work/packets/11111111.pkt" || exit 1
        taken=$(best crash) || exit 1
        [ "$(wc -c <"$work/bases/test.jdx")" -eq 40000 ] || fail "CrashMail tosses other messages: $(cat "$work/crashed")"
        least=$(printf '%s\n%s\n' "${least:-$taken}" "$taken" | sort -n | head -n 1)
    done
    printf '%s\n' "$least"
}

crash_times() {
    without=$(crash_best '') && with=$(crash_best JAM_LINK) || exit 1
    printf 'CrashMail: 5000 messages: %.3f s, and with the links of answers %.3f s\n' "$without" "$with"
}

# What CrashMail writes for a node: the mail of two areas, one of which the board doesn't have, and a letter. The packet
# that CrashWrite made of the first message is tossed behind it.
crash_packets() {
    crash_setup 'DUPEMODE IGNORE' "NODE 2:50/1.0 \"\" \"SECRET\"
ROUTE \"*:*/*.*\" \"2:50/1.0\" 2:50/108
AREA \"TEST\" 2:50/108 JAM \"$work/bases/test\"
EXPORT 2:50/1.0
AREA \"OTHER\" 2:50/108 JAM \"$work/bases/other\"
EXPORT 2:50/1.0"
    printf 'Hello there.\nA second line.\n' | post FROMNAME 'Joe Far' TONAME All SUBJECT First AREA TEST ORIGIN 'Far away'
    cat "$work"/packets/*.pkt >"$shelf/written"
    first=$(tr '\r\001' '\n\n' <"$shelf/written" | LC_ALL=C sed -n 's/^MSGID: //p')
    printf '\001REPLY: %s\nHello yourself.\n' "$first" |
        post FROMNAME 'Ann Lee' TONAME 'Joe Far' SUBJECT 'Re: First' AREA TEST ORIGIN Near
    echo 'Without an id.' | post FROMNAME 'Ann Lee' TONAME All SUBJECT Bare AREA TEST NOMSGID
    awk 'BEGIN { for (i = 0; i < 400; i++) print "A line of fifty bytes with its end, and one of many" }' |
        post FROMNAME 'Joe Far' TONAME All SUBJECT Long AREA TEST
    echo 'Elsewhere.' | post FROMNAME 'Joe Far' TONAME All SUBJECT Elsewhere AREA OTHER
    echo 'A letter.' | post FROMNAME 'Joe Far' TOADDR 2:50/1.7 TONAME 'Sam Sysop' SUBJECT Letter
    crash
    cat "$work"/spool/*.pkt >"$shelf/echo" || fail "CrashMail wrote no packet: $(cat "$work/crashed")"
    cat "$work"/spool/*.?ut >"$shelf/netmail" || fail "CrashMail wrote no letter: $(cat "$work/crashed")"

    renew 'conference: 0 local - GENERAL' 'conference: 1 net - NETMAIL' 'conference: 5 echo - Test'
    wants toss echo <<'END'
1 posted 5 1
2 posted 5 2
3 posted 5 3
4 refused length
5 refused area
posted 3 refused 2
END
    wants toss written <<'END'
1 refused dupe
posted 0 refused 1
END
    wants toss netmail <<'END'
1 posted 1 1
posted 1 refused 0
END
    wants toss echo <<'END'
1 refused dupe
2 refused dupe
3 posted 5 4
4 refused length
5 refused area
posted 1 refused 4
END
    shown <<'END'
board Test Board
user SAM SYSOP
1 1/1 private JOE FAR > SAM SYSOP: Letter [1]
2 5/1 public JOE FAR > ALL: First [5]
3 5/2 public ANN LEE > JOE FAR: Re: First [4]
4 5/3 public ANN LEE > ALL: Bare [4]
5 5/4 public ANN LEE > ALL: Bare [4]
5 messages
END
    answers 3 1
    echo 'What CrashMail wrote was tossed.'
}

# What the sysop gets of the board is to be shown so.
shown() {
    cat >"$work/listing"
    door enroll 'Sam Sysop' n all >/dev/null || fail "enroll failed with status $?"
    door export 'Sam Sysop' 100 out >/dev/null || fail "export failed with status $?"
    wants read out <"$work/listing"
}

# The message in a place of the packet is to answer the one of a number.
answers() {
    door read out "$1" | grep -q -x "Reference: $2" || fail "WRONG: the answer $1 isn't linked"
}

# ifmail, with a copy of it that runs as whoever runs this.
if_news() {
    TZ=UTC "$work/ifnews" -I "$work/ifconfig" -r f1.n50.z2 || fail "ifnews ends with status $?"
}

# An article of this name and id, with the further header lines and the text of standard input.
article() {
    printf '%s\n' "Path: far.example!joe" "From: $1 <joe@far.example>" 'Newsgroups: fido.test' \
        'Date: Sat, 28 Nov 2026 21:07:30 +0000' "Message-ID: <$2@far.example>"
    cat
}

# What ifmail makes of news and mail: an article, one that answers it, a long one, which comes in two parts, one with
# names that are cut, and a letter.
if_packets() {
    cp -- /usr/lib/ifmail/ifmail "$work/ifnews" && cp -- /usr/lib/ifmail/ifmail "$work/ifmail" || exit 1
    mkdir "$work/out" || exit 1
    printf 'TEST\tfido.test\tworld\tiso-8859-1\tCP437\n' >"$work/areas"
    cat >"$work/ifconfig" <<END
logfile $work/iflog
debugfile $work/ifdebug
verbose 0
address 2:50/100@fidonet
myfqdn far.example
inbound $work/out
listinbound $work/out
protinbound $work/out
outbound $work/out
domtrans .fidonet .fidonet.org
sequencer $work/seq
areas $work/areas
maptabdir /usr/lib/ifmail/maptabs
defaultftnchar cp437
defaultrfcchar iso-8859-1
maxpsize 0
maxmsize 12000
newslog $work/newslog
msgidbm $work/msgids
END
    printf 'Subject: A first article\n\nHello there.\n' | article 'Joe Far' one | if_news
    printf 'Subject: Re: A first article\nReferences: <one@far.example>\n\nHello yourself.\n' | article 'Ann Lee' two | if_news
    awk 'BEGIN {
        print "Subject: Long\n"
        for (i = 0; i < 400; i++)
            print "A line of fifty bytes with its end, and one of many"
    }' | article 'Joe Far' three | if_news
    awk 'BEGIN {
        printf "Subject: "
        for (i = 0; i < 100; i++)
            printf "x"
        print "\n\nCut."
    }' | article 'Johann Sebastian Ambrosius Maximilian Bach' four | if_news
    printf '%s\n' 'From: Joe Far <joe@far.example>' 'Subject: A letter' 'Date: Sat, 28 Nov 2026 22:00:00 +0000' \
        'Message-ID: <five@far.example>' '' 'Dear Sam.' |
        TZ=UTC "$work/ifmail" -I "$work/ifconfig" -r f1.n50.z2 Sam.Sysop@f1.n50.z2.fidonet.org ||
        fail "ifmail ends with status $?"
    cat "$work"/out/*.?ut >"$shelf/ifmail" || fail "ifmail wrote no packet: $(cat "$work/iflog")"

    renew 'conference: 0 local - GENERAL' 'conference: 1 net - NETMAIL' 'conference: 5 echo - Test'
    wants toss ifmail <<'END'
1 posted 5 1
2 posted 5 2
3 posted 5 3
4 posted 5 4
5 posted 5 5
6 posted 1 1
posted 6 refused 0
END
    wants toss ifmail <<'END'
1 refused dupe
2 refused dupe
3 refused dupe
4 refused dupe
5 refused dupe
6 refused dupe
posted 0 refused 6
END
    shown <<'END'
board Test Board
user SAM SYSOP
1 1/1 private JOE FAR > SAM SYSOP: A letter [3]
2 5/1 public JOE FAR > ALL: A first article [6]
3 5/2 public ANN LEE > ALL: Re: A first article [6]
4 5/3 public JOE FAR > ALL: Long [236]
5 5/4 public JOE FAR > ALL: [part 2] Long [178]
6 5/5 public Johann Sebastian Ambrosius Maximili > ALL: xxxxxxxxxxxxxxxxxxxxxxxxxxxxxxxxxxxxxxxxxxxxxxxxxxxxxxxxxxxxxxxxxxxxxxx [6]
6 messages
END
    answers 3 1
    echo 'What ifmail wrote was tossed.'
}

if are_there crashmail crashwrite; then
    crash_times
    crash_packets
fi
if [ -r /usr/lib/ifmail/ifmail ]; then
    if_packets
else
    echo 'toss: /usr/lib/ifmail/ifmail is missing, or may not be read, so no packet of ifmail is tossed'
fi
