#!/bin/sh
# Cuts real file systems off, without a flush of their logs, as a power cut does (FS_IOC_SHUTDOWN), under runs of the
# program and of bin/qwkdoor-day, each after a random few milliseconds. Each is mounted again, which recovers its log, and
# judged: the board is the one before the run or the one after it, and the one after it where its reply was said; of the
# days each letter is posted once, and each caller has got each message once. It needs root, a loop device and python3,
# and is no part of the gate. What a disk loses of its own cache isn't shown: the file behind the device keeps its writes.
# usage: bench/power.sh [TIMES] [DAYS] [TYPE..]    so many runs and days on each type of file system, else ext4 and xfs
# PROGRAM names a program that is built already; without it the program is built first.

times=${1:-30}
days=${2:-10}
[ $# -le 2 ] || { shift 2 && types=$*; }
top=$(readlink -f -- "$(dirname -- "$(readlink -f -- "$0")")/..")
program=${PROGRAM:-$top/.build/qwkdoor}
for tool in losetup mount umount unshare python3; do
    if ! command -v "$tool" >/dev/null; then
        printf 'power: %s is missing, so nothing is shown\n' "$tool"
        exit 0
    fi
done
if [ "$(id -u)" -ne 0 ]; then
    echo 'power: only root may mount a file system, so nothing is shown'
    exit 0
fi
[ -n "${PROGRAM:-}" ] || "$top/bin/qwkdoor" --build || exit 1
# Mounts that others see are copied where they make a space of mounts, and a disk is unmounted only where nobody has one.
if [ -z "${ALONE:-}" ]; then
    ALONE=1 exec unshare -m -- "$0" "$times" "$days" ${types:-}
fi

work=$(mktemp -d) || exit 1
place=$work/disk
mkdir -- "$place"
wrong=0
device=

end() {
    umount -- "$place" 2>/dev/null
    [ -z "$device" ] || losetup -d "$device"
    rm -rf -- "$work"
}
trap end EXIT
trap 'exit 1' HUP INT TERM

complain() {
    printf 'WRONG: %s\n' "$1"
    wrong=$((wrong + 1))
}

# Runs a command for so many seconds, cuts the disk off, waits for the command's end, and mounts the disk again. Its status
# is the command's, or 137 where the disk was cut off first. A mark of a sync that failed has done its part then, and is
# noted and taken away (docs/OPERATING.md).
cat >"$work/cut" <<'END'
#!/usr/bin/env python3
import fcntl, os, struct, subprocess, sys, time

SHUTDOWN, NO_LOG_FLUSH = 0x8004587D, 2
place = os.environ["PLACE"]
disk = os.open(place, os.O_RDONLY)
run = subprocess.Popen(sys.argv[2:])
time.sleep(float(sys.argv[1]))
is_over = run.poll() is not None
fcntl.ioctl(disk, SHUTDOWN, struct.pack("I", NO_LOG_FLUSH))
status = run.wait()
os.close(disk)
subprocess.run(["umount", "--", place], check=True)
subprocess.run(["mount", "--", os.environ["DEVICE"], place], check=True)
for folder, _, names in os.walk(place):
    lock = os.path.join(folder, "LOCK")
    if "LOCK" in names and os.path.getsize(lock) > 0:
        os.truncate(lock, 0)
        with open(os.environ["MARKS"], "a") as marks:
            marks.write(lock + "\n")
sys.exit(status if is_over else 137)
END
chmod +x "$work/cut"
PLACE=$place
MARKS=$work/marks
export PLACE MARKS

# Makes a file system of a type, and mounts it.
begin() {
    truncate -s 400M "$work/image.$1"
    device=$(losetup -f --show "$work/image.$1") || return 1
    DEVICE=$device
    export DEVICE
    "mkfs.$1" -q "$device" >/dev/null 2>&1 && mount -- "$device" "$place"
}

door() {
    "$program" "$place/data" "$place/shelf" "$@"
}

# What `check` says last of so many users (bench/kill.sh).
counts() {
    printf '%s users, 0 uploads, %s bytes' "$1" $((3191 + 135 * $1))
}

# Enrolls a user of this name in a run under which the disk is cut off after so many seconds.
enroll_and_cut() {
    "$work/cut" "$2" "$program" "$place/data" "$place/shelf" enroll "$1" n all >"$work/said" 2>"$work/faults" </dev/null
    status=$?
    case $status in
    0) ended=$((ended + 1)) ;;
    137) ;;
    *) complain "$1: the disk was not cut off and mounted again: $(cat "$work/faults")" ;;
    esac
}

# Looks at what a run left that was to enroll a user of this name behind the others.
look() {
    said=$(cat "$work/said")
    door check >"$work/checked" 2>"$work/faults" || complain "$1: check ends with $?: $(cat "$work/faults")"
    found=$(tail -n 1 "$work/checked")
    if [ "$found" = "$(counts $((users + 1)))" ]; then
        users=$((users + 1))
        after=$((after + 1))
        [ -z "$said" ] || printed=$((printed + 1))
    elif [ "$found" != "$(counts "$users")" ]; then
        complain "$1: another board is found: $found"
    elif [ -n "$said" ]; then
        complain "$1: the board before is found, and the run said: $said"
    else
        before=$((before + 1))
    fi
}

# Cuts the disk off under runs of the program.
cut_runs() {
    before=0
    after=0
    printed=0
    ended=0
    users=1
    cp -R -- "$top/crates/qwkdoor/data/shelf" "$place/shelf"
    door init setup.txt >/dev/null && began=$(date +%s%N) && door enroll 'User 000' n all >/dev/null || return 1
    taken=$((($(date +%s%N) - began) / 1000000))
    sync
    for turn in $(seq "$times"); do
        name=$(printf 'User %03d' "$turn")
        enroll_and_cut "$name" "$(awk -v taken="$taken" -v seed="$turn$$" 'BEGIN {
            srand(seed); printf "%.4f", rand() * taken / 1000 * 1.5 }')"
        look "$name"
    done
    printf '%s: %s runs, %s ended before the cut: the board before the run %s times, after it %s times (%s had said their reply)\n' \
        "$1" "$times" "$ended" "$before" "$after" "$printed"
}

for type in ${types:-ext4 xfs}; do
    if ! command -v "mkfs.$type" >/dev/null || ! begin "$type"; then
        printf '%s: none can be made here, so nothing is shown\n' "$type"
        [ -z "$device" ] || losetup -d "$device"
        device=
        continue
    fi
    cut_runs "$type" || complain "$type: the runs ended early"
    if [ "$days" -gt 0 ]; then
        QWKDOOR=$program CUT=$work/cut "$top/bench/day.py" "$days" >"$work/days" 2>&1 ||
            complain "$type: a day went wrong: $(grep WRONG "$work/days")"
        tail -n 2 "$work/days" | sed "s/^/$type, days: /"
    fi
    umount -- "$place"
    losetup -d "$device"
    device=
    rm -f -- "$work/image.$type"
done
[ ! -f "$MARKS" ] || printf 'LOCK kept the mark of a failed sync %s times\n' "$(wc -l <"$MARKS")"
[ "$wrong" -eq 0 ]
