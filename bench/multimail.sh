#!/bin/sh
# Carries a packet to MultiMail (Debian's package multimail) and its replies back, without a person: makes a board,
# exports a packet, opens it in MultiMail on a screen of tmux, where each message must be shown, writes three replies
# and three new messages there, uploads the reply packet, and reads what was posted out of two further packets. Says
# what it did and saw, step by step, and ends with 1 where it sees anything else. Without mm, tmux, zip or unzip it
# says so and shows nothing. It is no part of the gate. usage: bench/multimail.sh
# DOOR names another command that runs the program, in place of bin/qwkdoor.

top=$(dirname -- "$(readlink -f -- "$0")")/..
for tool in mm tmux zip unzip; do
    if ! command -v "$tool" >/dev/null; then
        printf 'multimail: %s is missing, so nothing is shown\n' "$tool"
        exit 0
    fi
done
program=${DOOR:-$top/bin/qwkdoor}
[ -n "${DOOR:-}" ] || "$program" --build || exit 1
work=$(mktemp -d) || exit 1
work=$(readlink -f -- "$work")
shelf=$work/shelf
home=$work/home
down=$home/mmail/down
up=$home/mmail/up
# How often something is looked for, a tenth of a second apart, before it counts as missing.
turns=400
trap clean EXIT
trap 'exit 1' HUP INT TERM
unset MMAIL TMUX

# The screen has a server of its own, which ends with its one session.
on_screen() {
    tmux -f /dev/null -S "$work/tmux" "$@"
}

clean() {
    on_screen kill-server 2>/dev/null
    rm -rf -- "$work"
}

say() {
    printf '%s\n' "$1"
}

fail() {
    printf 'WRONG: %s\n' "$1"
    exit 1
}

# Carries out the commands of standard input as a batch, whose reply is kept in the file `said`.
door() {
    cat >"$shelf/batch.txt"
    "$program" "$work/data" "$shelf" batch batch.txt >"$work/said"
    status=$?
    [ "$status" -eq 0 ] || fail "the program ends with status $status and says: $(cat "$work/said")"
}

# The reply of the last batch must be these lines, apart from dates and MultiMail's version. A line of one space, which
# MultiMail writes before its own last line, is written as `_` here.
wants() {
    cat >"$work/wanted"
    sed -e '/^Date: /d' -e 's,^\(--- MultiMail\)/.*,\1,' -e 's/^ $/_/' "$work/said" >"$work/plain"
    if ! diff "$work/wanted" "$work/plain" >"$work/differs"; then
        cat "$work/differs"
        fail 'the reply of the program (>) is not the one that is wanted (<)'
    fi
}

keys() {
    on_screen send-keys -t mm "$@"
}

# Whether each of the texts is on the screen as it was caught last.
shows() {
    for text in "$@"; do
        grep -q -F -e "$text" "$work/screen" || return 1
    done
}

# Waits until all of the texts are on the screen at once.
await() {
    turn=0
    while [ "$turn" -lt "$turns" ]; do
        on_screen capture-pane -p -t mm >"$work/screen" 2>/dev/null
        shows "$@" && return
        sleep 0.1
        turn=$((turn + 1))
    done
    cat "$work/screen"
    for text in "$@"; do
        shows "$text" || fail "the screen doesn't show: $text"
    done
}

# Waits until there is a file.
await_file() {
    turn=0
    while [ "$turn" -lt "$turns" ]; do
        [ -f "$1" ] && return
        sleep 0.1
        turn=$((turn + 1))
    done
    on_screen capture-pane -p -t mm
    fail "$2"
}

# Answers the question that follows the header of a message, and waits until the editor has put standard input behind
# what it was given. The word is the answer that MultiMail proposes: Yes in a reply to a private message.
write_text() {
    cat >"$work/text"
    rm -f -- "$work/edited"
    await 'Make letter private?' "[$1]"
    keys Enter
    await_file "$work/edited" 'the editor was not started'
}

# The message on the screen must have these: its place in the list, sender, recipient, subject, and texts.
message() {
    place=$1 from=$2 to=$3 subject=$4
    shift 4
    await "Msg#: $place" "From: $from" "To: $to" "Subj: $subject" "$@"
    say "shown: $place $from > $to: $subject"
}

# Writes a reply to the message on the screen, private where that one is.
reply() {
    keys R
    await 'Reply goes to area:'
    keys Enter
    await 'From: ANN LEE' "To: $2" "Subj: $3"
    keys Enter
    write_text "$1"
    say "wrote a reply to $2: $3"
}

# Writes a new public message, to a name and with a subject, from the list of messages of a conference.
compose() {
    keys E
    await 'From: ANN LEE' 'To: All' 'Subj: '
    keys Up
    keys -l -- "$1"
    await "To: $1"
    keys Enter
    keys -l -- "$2"
    await "Subj: $2"
    keys Enter
    write_text No
    say "wrote a new message to $1: $2"
}

# The board and the packet.
mkdir -p -- "$shelf" "$down" || exit 1
cp -- "$top/crates/qwkdoor/data/shelf/setup.txt" "$shelf/" || exit 1
{
    printf 'From: Bob Ray\nTo: All\nSubject: Hello\n\nFirst line of the first message\n.\n'
    printf 'From: Cy Day\nTo: Ann Lee\nSubject: The boat\n\nIs the boat still for sale?\n\n..It needs paint.\n.\n'
    printf 'From: Bob Ray\nTo: Ann Lee\nSubject: For you alone\nPrivate: yes\n\nThe key lies under the stone\n.\n'
    printf 'From: Bob Ray\nTo: All\nSubject: Twelve lines about the boat that is for sale\n\n'
    for line in 1 2 3 4 5 6 7 8 9 10 11 12; do
        printf 'This is line %s of the twelve\n' "$line"
    done
    printf '.\n'
} >"$shelf/general.txt"
printf 'From: Dee Far\nTo: Ann Lee\nSubject: From far away\n\nGreetings from another board\n.\n' >"$shelf/net.txt"
printf 'From: Sam Sysop\nTo: All\nSubject: The line is back\n\nThe second line answers again\n.\n' >"$shelf/news.txt"
door <<'BATCH'
init setup.txt
enroll "Ann Lee" n all
enroll "Bob Ray" - 0
import 0 general.txt
import 1 net.txt
import 7 news.txt
export "Ann Lee" 2000 out
BATCH
wants <<'REPLY'
made 3 conferences
user 1 Ann Lee
user 2 Bob Ray
imported 4 into 0
imported 1 into 1
imported 1 into 7
packet 1: 6 messages
REPLY
say 'made a board, and exported packet 1 of Ann Lee: 6 messages in 3 conferences'
zip -qj0 "$down/TESTBBS.QWK" "$shelf/out/CONTROL.DAT" "$shelf/out/MESSAGES.DAT" || fail 'zip failed'
say 'zipped its two files as TESTBBS.QWK'

# MultiMail asks at its first start whether its settings are to be edited. The editor takes two seconds, since
# MultiMail takes a text whose time didn't change for one that wasn't edited.
cat >"$work/editor" <<EDITOR
#!/bin/sh
sleep 2
cat -- '$work/text' >>"\$1"
: >'$work/edited'
EDITOR
cat >"$work/start" <<START
#!/bin/sh
mm -UseTaglines No -LetterSort Number -LetterMode All
echo "\$?" >'$work/status'
mv -- '$work/status' '$work/ended'
START
chmod +x "$work/editor" "$work/start"
on_screen new-session -d -x 80 -y 25 -s mm \
    "env HOME='$home' EDITOR='$work/editor' TZ=UTC LC_ALL=C TERM=screen '$work/start'" || fail 'tmux failed'
await 'Edit .mmailrc now?'
keys n Enter
await 'Welcome to MultiMail' 'TESTBBS'
keys Enter
await 'REPLY  Letters written by you' 'PERS  Letters addressed to you' '0  GENERAL' '1  NETMAIL' '7  NEWS' \
    'Name: Test Board' 'Sysop: Sam Sysop'
say 'MultiMail opened it: Test Board, Sam Sysop, GENERAL, NETMAIL, NEWS'

keys Home Down Down Enter
await 'All in GENERAL' '1  BOB RAY          ALL             Hello' '2  CY DAY           ANN LEE         The boat' \
    '3  BOB RAY          ANN LEE         For you alone' '4  BOB RAY          ALL             Twelve lines about the bo'
say 'GENERAL lists its 4 messages'
keys Enter
message '1 (1 of 4)' 'BOB RAY' 'ALL' 'Hello' 'First line of the first message'
reply No 'BOB RAY' 'Re: Hello' <<'TEXT'
Welcome to the board
TEXT
await 'Msg#: 1 (1 of 4)' 'First line of the first message'
keys Enter
message '2 (2 of 4)' 'CY DAY' 'ANN LEE' 'The boat' 'Is the boat still for sale?' '.It needs paint.'
keys Enter
message '3 (3 of 4)' 'BOB RAY' 'ANN LEE' 'For you alone' 'The key lies under the stone'
reply Yes 'BOB RAY' 'Re: For you alone' <<'TEXT'
I have found it
TEXT
await 'Msg#: 3 (3 of 4)' 'The key lies under the stone'
keys Enter
message '4 (4 of 4)' 'BOB RAY' 'ALL' 'Twelve lines about the boat that is for sale' \
    'This is line 1 of the twelve' 'This is line 12 of the twelve'
# The field of a long subject shows its end, and MultiMail puts no `Re: ` before it.
reply No 'BOB RAY' 'the boat that is for sale' <<'TEXT'
I would like to see it
TEXT
await 'Msg#: 4 (4 of 4)'
keys q
await 'All in GENERAL'
compose 'Cy Day' 'Paint' <<'TEXT'
Which colour would you like?
TEXT
await 'All in GENERAL'
keys q
await '0  GENERAL' 'REPLY  Letters written by you'

keys Home Down Down Down Enter
await 'All in NETMAIL' '1  DEE FAR          ANN LEE         From far away'
say 'NETMAIL lists its message'
keys Enter
message '1 (1 of 1)' 'DEE FAR' 'ANN LEE' 'From far away' 'Greetings from another board'
reply Yes 'DEE FAR' 'Re: From far away' <<'TEXT'
This reply has no address line
TEXT
await 'Msg#: 1 (1 of 1)' 'Greetings from another board'
keys q
await 'All in NETMAIL'
compose 'Dee Far' 'Greetings' <<'TEXT'
Dee Far@1:234/5
They have come over the net
TEXT
await 'All in NETMAIL'
keys q
await '1  NETMAIL' 'REPLY  Letters written by you'

keys Home Down Down Down Down Enter
await 'All in NEWS' '1  SAM SYSOP        ALL             The line is back'
say 'NEWS lists its message'
keys Enter
message '1 (1 of 1)' 'SAM SYSOP' 'ALL' 'The line is back' 'The second line answers again'
keys q
await 'All in NEWS'
compose 'All' 'More news' <<'TEXT'
This conference is read-only
TEXT
await 'All in NEWS'
keys q
await '7  NEWS' 'REPLY  Letters written by you                                7'
keys q
await 'Welcome to MultiMail' 'TESTBBS'
keys q
await 'Do you really want to quit?'
keys Enter
await_file "$work/ended" 'MultiMail did not end'
[ "$(cat "$work/ended")" = 0 ] || fail "MultiMail ends with status $(cat "$work/ended")"
say 'MultiMail counted 7 replies, and ended with status 0'

# The way back.
[ -f "$up/testbbs.rep" ] || fail "there is no testbbs.rep, but: $(ls "$up")"
unzip -qjo "$up/testbbs.rep" -d "$shelf" || fail 'unzip failed'
[ -f "$shelf/TESTBBS.MSG" ] || fail "testbbs.rep has no TESTBBS.MSG: $(unzip -l "$up/testbbs.rep")"
say "unzipped testbbs.rep: TESTBBS.MSG, $(wc -c <"$shelf/TESTBBS.MSG") bytes"
door <<'BATCH'
upload "Ann Lee" TESTBBS.MSG
upload "Ann Lee" TESTBBS.MSG
ack "Ann Lee" 1
export "Ann Lee" 2000 mine
read mine
read mine 5
export "Bob Ray" 2000 bob
read bob
read bob 5
read bob 6
read bob 8
BATCH
say 'uploaded it twice, acknowledged packet 1, exported packet 2 of Ann Lee and packet 1 of Bob Ray, and read them:'
cat "$work/said"
wants <<'REPLY'
1 posted 0 5
2 posted 0 6
3 posted 0 7
4 posted 0 8
5 refused address
6 posted 1 2
7 refused readonly
posted 5 refused 2
again posted 5 refused 2
acknowledged 1
packet 2: 5 messages
board Test Board
user ANN LEE
1 0/5 public ANN LEE > BOB RAY: Re: Hello [6]
2 0/6 private ANN LEE > BOB RAY: Re: For you alone [6]
3 0/7 public ANN LEE > BOB RAY: Twelve lines about the boat that is for sale [17]
4 0/8 public ANN LEE > CY DAY: Paint [3]
5 1/2 private ANN LEE > DEE FAR: Greetings [3]
5 messages
From: ANN LEE
To: DEE FAR
Subject: Greetings
Conference: 1
Number: 2
Reference: 0

They have come over the net
_
--- MultiMail
packet 1: 8 messages
board Test Board
user BOB RAY
1 0/1 public BOB RAY > ALL: Hello [1]
2 0/2 public CY DAY > ANN LEE: The boat [3]
3 0/3 private BOB RAY > ANN LEE: For you alone [1]
4 0/4 public BOB RAY > ALL: Twelve lines about the boat that is for sale [12]
5 0/5 public ANN LEE > BOB RAY: Re: Hello [6]
6 0/6 private ANN LEE > BOB RAY: Re: For you alone [6]
7 0/7 public ANN LEE > BOB RAY: Twelve lines about the boat that is for sale [17]
8 0/8 public ANN LEE > CY DAY: Paint [3]
8 messages
From: ANN LEE
To: BOB RAY
Subject: Re: Hello
Conference: 0
Number: 5
Reference: 1

-=> BOB RAY wrote to ALL <=-

 BR> First line of the first message
Welcome to the board
_
--- MultiMail
From: ANN LEE
To: BOB RAY
Subject: Re: For you alone
Conference: 0
Number: 6
Reference: 3

-=> BOB RAY wrote to ANN LEE <=-

 BR> The key lies under the stone
I have found it
_
--- MultiMail
From: ANN LEE
To: CY DAY
Subject: Paint
Conference: 0
Number: 8
Reference: 0

Which colour would you like?
_
--- MultiMail
REPLY
say 'each as wanted'
