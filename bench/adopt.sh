#!/bin/sh
# Adopts bases of 2,500, 5,000 and 9,999 messages of 200 bytes, each into three conferences that are empty, on a board in
# real folders, and says how long the best of three runs takes beside `sha256sum` of the base's files, and how many bytes
# were written in all. Then it adopts what CrashMail tosses and JamNNTPd posts (Debian's packages crashmail and jamnntpd),
# each conference as it should come out, and ends with 1 where it sees anything else; without these, or without perl, it
# says so. It is no part of the gate. usage: bench/adopt.sh
# PROGRAM may name the program.

top=$(dirname -- "$(readlink -f -- "$0")")/..
# shellcheck disable=SC2034 # how often best times a command
runs=1
# shellcheck source=/dev/null
. "$top/bench/best.sh"
program=${PROGRAM:-$top/.build/qwkdoor}
work=$(mktemp -d) || exit 1
work=$(readlink -f -- "$work")
shelf=$work/shelf
server=
trap clean EXIT
trap 'exit 1' HUP INT TERM

clean() {
    [ -z "$server" ] || kill "$server" 2>/dev/null
    rm -rf -- "$work"
}

door() {
    "$program" "$work/data" "$shelf" "$@"
}

# A sheet of so many messages, each with one line of so many bytes with its end.
sheet() {
    awk -v count="$1" -v bytes="$2" 'BEGIN {
        for (i = 1; i < bytes; i++) {
            line = line "x"
        }
        for (i = 0; i < count; i++) {
            printf "From: Bob Ray\nTo: All\nSubject: Hello\n\n%s\n.\n", line
        }
    }'
}

# A new board.
renew() {
    rm -rf -- "$work/data"
    door init setup.txt >/dev/null || fail "init failed with status $?"
}

# Puts the base of a path on the shelf under a prefix, with the ending of each file in capitals.
bring() {
    for ending in jhr jdx jdt; do
        cp -- "$1.$ending" "$shelf/$2.$(printf '%s' "$ending" | tr '[:lower:]' '[:upper:]')" || exit 1
    done
}

# How many bytes a run writes that adopts a base.
written() {
    # shellcheck disable=SC2016 # the inner shell is to expand it
    sh -c '"$@" >/dev/null; sed -n "s/^wchar: //p" "/proc/$$/io"' sh "$program" "$work/data" "$shelf" adopt "$1" "$2"
}

mkdir -p "$shelf" || exit 1
cp "$top/crates/qwkdoor/data/shelf/setup.txt" "$shelf" || exit 1
build_program

for count in 2500 5000 9999; do
    sheet "$count" 200 >"$shelf/sheet"
    renew
    [ "$(door import 0 sheet)" = "imported $count into 0" ] || fail 'import failed'
    for ending in JHR JDX JDT; do
        cp -- "$work/data/C00.$ending" "$shelf/old.$ending" || exit 1
    done
    renew
    least=
    for conference in 0 1 7; do
        taken=$(best door adopt "$conference" old) || fail "adopt failed with status $?"
        least=$(printf '%s\n%s\n' "${least:-$taken}" "$taken" | sort -n | head -n 1)
    done
    cmp -s "$work/data/C00.JDT" "$shelf/old.JDT" || fail 'the texts are others'
    hashing=$(best sha256sum "$shelf"/old.*) || exit 1
    renew
    bytes=$(written 0 old)
    awk -v count="$count" -v taken="$least" -v hashing="$hashing" -v bytes="$bytes" \
        -v files="$(cat "$shelf"/old.* | wc -c)" 'BEGIN {
        printf "%d messages: %.3f s, sha256sum of the %d bytes of the base %.3f s, %d bytes written\n", count, taken, files, hashing, bytes
    }'
    row "adopt of $count messages" "$least" - "$hashing"
done

for tool in crashwrite crashmail crashmaint jamnntpd perl; do
    if ! command -v "$tool" >/dev/null; then
        printf 'adopt: %s is missing, so no base of another tool is adopted\n' "$tool"
        exit 0
    fi
done

# A command is to say these lines of standard input.
wants() {
    cat >"$work/wanted"
    door "$@" >"$work/said" || fail "$* ends with status $?"
    diff "$work/wanted" "$work/said" || fail "WRONG: $* says the lines with > in place of those with <"
}

# Writes a message with the text of standard input into a packet of its own. The msgid has the moment, in seconds.
post() {
    cat >"$work/text"
    crashwrite DIR "$work/packets" TEXT "$work/text" TOADDR 2:200/108.7 "$@" >/dev/null || fail 'crashwrite failed'
    sleep 1
}

crash() {
    "$@" SETTINGS "$work/prefs" >"$work/crashed" || fail "$1 ends with status $?: $(cat "$work/crashed")"
}

# Sends the lines of standard input to the news server, and waits for an answer to each that is a command or ends an
# article.
send() {
    perl -MIO::Socket::INET -e '
        my $server;
        for (1 .. 50) {
            $server = IO::Socket::INET->new(PeerAddr => "127.0.0.1", PeerPort => $ARGV[0]) and last;
            select undef, undef, undef, 0.1;
        }
        $server or die "no server";
        alarm 60;
        print scalar <$server>;
        my $article = 0;
        while (my $line = <STDIN>) {
            chomp $line;
            print $server "$line\r\n";
            next if $article && $line ne ".";
            print scalar <$server>;
            $article = $line eq "POST";
        }' "$1"
}

mkdir "$work/packets" "$work/spool" "$work/bases" || exit 1
cat >"$work/prefs" <<END
SYSOP "Sam Sysop"
LOGFILE "$work/log"
DUPEMODE IGNORE
LOOPMODE IGNORE
DEFAULTZONE 2
INBOUND "$work/spool"
OUTBOUND "$work/spool"
TEMPDIR "$work/spool"
CREATEPKTDIR "$work/spool"
PACKETDIR "$work/spool"
STATSFILE "$work/stats"
JAM_LINK
AKA 2:200/108.7
NETMAIL "NETMAIL" 2:200/108.7 JAM "$work/bases/netmail"
AREA "TEST" 2:200/108.7 JAM "$work/bases/fido.test"
KEEPNUM 4
END

# CrashMail: a message that is deleted at last, one with an answer, and a further one; and a letter.
echo 'To be deleted.' | post FROMNAME 'Joe Far' FROMADDR 2:200/100 TONAME All SUBJECT Gone AREA TEST
printf 'Hello there.\nA second line.\n' |
    post FROMNAME 'Joe Far' FROMADDR 2:200/100 TONAME All SUBJECT First AREA TEST ORIGIN 'Far away'
first=$(cat "$work"/packets/*.pkt | tr '\r\001' '\n\n' | LC_ALL=C sed -n 's/^MSGID: //p' | sort | tail -n 1)
printf '\001REPLY: %s\nHello yourself.\n' "$first" |
    post FROMNAME 'Ann Lee' FROMADDR 2:200/101.3 TONAME 'Joe Far' SUBJECT 'Re: First' AREA TEST ORIGIN Near
echo 'Without an id.' | post FROMNAME 'Ann Lee' FROMADDR 2:200/101.3 TONAME All SUBJECT Bare AREA TEST NOMSGID
echo 'A letter.' | post FROMNAME 'Joe Far' FROMADDR 2:200/100 TONAME 'Sam Sysop' SUBJECT Letter
crash crashmail TOSSDIR "$work/packets" NOSECURITY

# JamNNTPd: an answer to Ann Lee's, the third record, which it numbers 2, since it sees every other record there; and a
# letter.
printf 'TEST A 2:200/108.7 %s\n!NETMAIL A 2:200/108.7 %s\n' "$work/bases/fido.test" "$work/bases/netmail" >"$work/groups"
echo '127.0.0.1 A A' >"$work/allow"
echo 'sam secret A A "Sam Sysop"' >"$work/users"
port=$(perl -MIO::Socket::INET -e 'print IO::Socket::INET->new(Listen => 1, LocalAddr => "127.0.0.1")->sockport') || exit 1
jamnntpd -p "$port" -g "$work/groups" -a "$work/allow" -u "$work/users" -x /etc/jamnntpd.xlat \
    -l "$work/news" -noecholog >/dev/null 2>&1 </dev/null &
server=$!
send "$port" >"$work/sent" <<'END' || fail "the news server says: $(cat "$work/sent")"
AUTHINFO USER sam
AUTHINFO PASS secret
POST
From: Sam Sysop <sam@example.org>
Newsgroups: TEST
Subject: Re: First
References: <2$TEST@JamNNTPd>
Content-Type: text/plain

An answer from a news reader.
.
POST
From: Sam Sysop <sam@example.org>
Newsgroups: NETMAIL
Subject: Thanks
Content-Type: text/plain

To: Joe Far, 2:200/100

Thank you.
.
QUIT
END
[ "$(grep -c '^240 ' "$work/sent")" -eq 2 ] || fail "the news server says: $(cat "$work/sent")"
kill "$server"
server=
crash crashmaint MAINT

bring "$work/bases/fido.test" fido.test
bring "$work/bases/netmail" netmail
renew
wants adopt 0 fido.test <<'END'
2 posted 0 1
3 posted 0 2
4 posted 0 3
5 refused subfields
posted 3 refused 1
END
wants adopt 1 netmail <<'END'
1 posted 1 1
2 refused subfields
posted 1 refused 1
END

# What JamNNTPd posted, once it is mended.
for base in fido.test netmail; do
    [ "$(perl "$top/bench/subfields.pl" "$shelf/$base")" = 'mended 1' ] || fail "$base isn't mended"
done
renew
wants adopt 0 fido.test <<'END'
2 posted 0 1
3 posted 0 2
4 posted 0 3
5 posted 0 4
posted 4 refused 0
END
wants adopt 1 netmail <<'END'
1 posted 1 1
2 posted 1 2
posted 2 refused 0
END
wants enroll 'Sam Sysop' n all <<'END'
user 1 Sam Sysop
END
wants export 'Sam Sysop' 10 out <<'END'
packet 1: 6 messages
END
wants read out <<'END'
board Test Board
user SAM SYSOP
1 0/1 public JOE FAR > ALL: First [4]
2 0/2 public ANN LEE > JOE FAR: Re: First [3]
3 0/3 public ANN LEE > ALL: Bare [3]
4 0/4 public SAM SYSOP > ANN LEE: First [4]
5 1/1 private JOE FAR > SAM SYSOP: Letter [1]
6 1/2 private SAM SYSOP > JOE FAR: Thanks [1]
6 messages
END
for answer in '2 1' '4 2'; do
    door read out "${answer% *}" | grep -q -x "Reference: ${answer#* }" || fail "WRONG: the answer ${answer% *} isn't linked"
done
echo 'What CrashMail and JamNNTPd wrote was adopted.'
