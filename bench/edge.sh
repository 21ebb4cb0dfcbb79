#!/bin/sh
# Shows by strace what a run asks of the system: that each sync reached the file and the folder, that a fault in
# any one call ends the run with the stated status and does no other harm, and that a sync that failed keeps the next
# run out. `.ci/run` runs it in a short form, with few calls, after the gate.
# usage: bench/edge.sh [WORDS..]    the command that is run; without words it is `list P1`
#        bench/edge.sh --all [EVERY [FIRST]]
# With --all each call fails with each of some errors under every command that changes a board, and under a recovery
# (bench/edge.py, which is Python); with EVERY only one in so many of these cases, from the one of the number FIRST on.
# The folders that DATA_FROM and SHELF_FROM name are copied before each run, and stand for DATA and SHELF.
# Without them there is no DATA, and SHELF is the sample. CALLS is which of the system's calls are looked at, and
# MOST how many of them fail in turn at most; with EVERY only one in so many of them fails. PROGRAM is a program that is
# built already; without it the program is built first.

top=$(dirname -- "$(readlink -f -- "$0")")/..
program=${PROGRAM:-$top/.build/qwkdoor}
shelf_from=${SHELF_FROM:-$top/crates/qwkdoor/data/shelf}
data_from=${DATA_FROM:-}
most=${MOST:-400}
every=${EVERY:-1}
[ $# -gt 0 ] || set -- list P1

if ! command -v strace >/dev/null; then
    echo 'edge: strace is missing, so nothing is shown'
    exit 0
fi
[ -n "${PROGRAM:-}" ] || "$top/bin/qwkdoor" --build || exit 1
if [ "$1" = --all ]; then
    if ! command -v python3 >/dev/null; then
        echo 'edge: python3 is missing, so nothing is shown'
        exit 0
    fi
    shift
    PROGRAM=$program exec "$top/bench/edge.py" "$@"
fi

work=$(mktemp -d) || exit 1
work=$(readlink -f -- "$work")
trap 'rm -rf -- "$work"' EXIT
trap 'exit 1' HUP INT TERM
place=$work/place
calls=${CALLS:-openat,getdents64,mkdir,mkdirat,stat,lstat,fstat,statx,newfstatat,read,pread64,write,pwrite64,ftruncate,fsync,flock}
wrong=0

if ! strace -qq -o "$work/probe" true 2>/dev/null; then
    echo 'edge: strace may not trace here, so nothing is shown'
    exit 0
fi

complain() {
    printf 'WRONG: %s\n' "$1"
    wrong=$((wrong + 1))
}

# Lays out the two folders as they are before each run.
lay_out() {
    rm -rf -- "$place"
    mkdir -- "$place"
    cp -R -- "$shelf_from" "$place/shelf"
    if [ -n "$data_from" ]; then
        cp -R -- "$data_from" "$place/data"
    fi
}

# Runs a command on no input. Its status is the run's, also under strace.
run() {
    "$@" >"$place/said" 2>"$place/faults" </dev/null
}

# Says what each file under DATA went through, and complains where a name that a sync was to keep wasn't
# synced with it.
show_syncs() {
    awk -v data="$place/data" '
        { call = $0; sub(/\(.*/, "", call) }
        / = -1 / { next }
        {
            path = ""
            if (match($0, /\([0-9]+<[^>]*>/)) {
                path = substr($0, RSTART, RLENGTH - 1)
                sub(/^\([0-9]+</, "", path)
            }
            if (call == "openat" && match($0, /"[^"]*"/))
                path = substr($0, RSTART + 1, RLENGTH - 2)
            inside = index(path, data "/") == 1
        }
        call == "openat" && inside && /O_EXCL/ && path != data "/LOCK" { fresh[path] = NR }
        call == "pwrite64" && inside { written[path]++; seen[path] = 1; open[path]++ }
        call == "ftruncate" && inside { cut[path]++; seen[path] = 1; open[path]++ }
        call == "fsync" && inside { synced[path]++; seen[path] = 1; open[path] = 0; last = NR }
        call == "fsync" && path == data { folder++; for (p in fresh) delete fresh[p] }
        call == "fsync" && !inside && path != data { parent++ }
        END {
            for (p in seen)
                printf "%s: %d writes, %d new lengths, %d syncs, %d of the first two since the last sync\n", \
                    substr(p, length(data) + 2), written[p], cut[p], synced[p], open[p]
            printf "folder: %d syncs, its parent: %d\n", folder, parent
            for (p in open)
                if (open[p] > 0)
                    printf "WRONG: %s was not synced after its last change\n", substr(p, length(data) + 2)
            for (p in fresh)
                if (fresh[p] < last)
                    printf "WRONG: the name of %s was not synced\n", substr(p, length(data) + 2)
        }' "$1"
}

lay_out
run strace -qq -y -s 0 -o "$work/whole" -e "trace=$calls" "$program" "$place/data" "$place/shelf" "$@"
status=$?
cp -- "$place/said" "$work/said"
printf 'qwkdoor DATA SHELF %s: status %s, %s bytes said\n' "$*" "$status" "$(wc -c <"$work/said")"
show_syncs "$work/whole" | tee "$work/syncs"
grep -q '^WRONG' "$work/syncs" && wrong=$((wrong + 1))

# The run again, with the calls alone that name a path below the folders or the output.
sed -n 's/^[a-z0-9_]*([0-9]*<\([^>]*\)>.*/\1/p; t; s/^[^"]*"\([^"]*\)".*/\1/p' "$work/whole" |
    grep -e "^$place" | grep -v -x -e "$place/faults" | sort -u >"$work/paths"
{
    printf 'exec strace -qq -y -s 0 -e trace=%s' "$calls"
    sed "s/.*/ -P '&'/" "$work/paths" | tr -d '\n'
    # shellcheck disable=SC2016 # The words are those of the script that is written here.
    echo ' "$@"'
} >"$work/narrow"

lay_out
run sh "$work/narrow" -o "$work/calls" "$program" "$place/data" "$place/shelf" "$@"
# The looks by which the two folders are compared are left out, since only a command that touches DATA asks what they say.
awk -v place="$place" -v data="$place/data" -v shelf="$place/shelf" -v said="$place/said" -v every="$every" '
    {
        call = $0
        sub(/\(.*/, "", call)
        count[call]++
        if (call == "statx" && (index($0, "\"" place "\"") || index($0, "\"" data "\"") || index($0, "\"" shelf "\"")))
            next
        wanted = index($0, shelf) ? 5 : index($0, said) ? 6 : 4
        if (NR % every == 0)
            print call, count[call], wanted
    }' "$work/calls" | head -n "$most" >"$work/each"

# What was said is a front of the whole reply.
is_front() {
    head -c "$(wc -c <"$place/said")" "$work/said" | cmp -s - "$place/said"
}

# How many lines of standard error tell of a failed sync and what has to be done.
told_of_sync() {
    grep -c 'a sync failed.*restart the machine before the next run' "$place/faults"
}

# What the next run does after a call that failed. After a failed sync of DATA, as the run before told, it ends at
# once, and says why, until the machine is restarted, which an empty LOCK stands for.
try_next() {
    unsynced=$(told_of_sync)
    run "$program" "$place/data" "$place/shelf" "$@"
    got=$?
    if [ "$unsynced" -gt 0 ]; then
        [ "$got" -eq 4 ] || complain "after call $number of $call failed: the next run ends with $got, wanted 4"
        [ "$(told_of_sync)" -eq 1 ] || complain "after call $number of $call failed: the next run doesn't say what to do"
        [ ! -s "$place/said" ] || complain "after call $number of $call failed: the next run says something"
        printf '%s\n' "$call" >>"$work/kept_out"
        : >"$place/data/LOCK"
        run "$program" "$place/data" "$place/shelf" "$@"
        got=$?
    fi
    [ "$got" -le 1 ] || complain "after call $number of $call failed: the next run ends with $got"
}

while read -r call number wanted; do
    lay_out
    run sh "$work/narrow" -o "$work/one" -e "inject=$call:error=EIO:when=$number" \
        "$program" "$place/data" "$place/shelf" "$@"
    got=$?
    # The files of DATA are looked at too before one of the shelf is written, which is what fails then.
    [ "$call $wanted $got" != 'statx 4 5' ] || wanted=5
    [ "$got" -eq "$wanted" ] || complain "call $number of $call fails: status $got, wanted $wanted"
    is_front || complain "call $number of $call fails: another reply"
    case $wanted in
    4) line='disk fault' ;;
    5) line='shelf fault' ;;
    *) line='output fault' ;;
    esac
    # strace says so where a path that it is given has `..` in it.
    grep -v '^strace: ' "$place/faults" >"$work/faults"
    [ "$(tail -n 1 "$work/faults")" = "$line" ] || complain "call $number of $call fails: the last line isn't $line"
    [ "$wanted" -eq 6 ] || [ "$(wc -l <"$work/faults")" -gt 1 ] ||
        complain "call $number of $call fails: no line says which file"
    [ "$call $wanted" != 'fsync 4' ] || [ "$(told_of_sync)" -eq 1 ] ||
        complain "call $number of fsync fails: no line says what to do"
    try_next "$@"
    printf '%s %s\n' "$call" "$wanted" >>"$work/tried"
done <"$work/each"
sort "$work/tried" | uniq -c | while read -r count call wanted; do
    printf '%s: %s calls failed in turn, status %s wanted of each\n' "$call" "$count" "$wanted"
done

[ ! -f "$work/kept_out" ] || sort "$work/kept_out" | uniq -c | while read -r count call; do
    printf '%s: %s of them a sync that failed, status 4 and no reply wanted of the next run\n' "$call" "$count"
done

# A call that is interrupted goes on.
while read -r call number wanted; do
    case $call in
    read | pread64 | write | pwrite64) ;;
    *) continue ;;
    esac
    lay_out
    run sh "$work/narrow" -o "$work/one" -e "inject=$call:error=EINTR:when=$number" \
        "$program" "$place/data" "$place/shelf" "$@"
    got=$?
    [ "$got" -eq "$status" ] || complain "call $number of $call is interrupted: status $got"
    cmp -s "$place/said" "$work/said" || complain "call $number of $call is interrupted: another reply"
    printf '%s\n' "$call" >>"$work/interrupted"
done <"$work/each"
[ ! -f "$work/interrupted" ] || sort "$work/interrupted" | uniq -c | while read -r count call; do
    printf '%s: %s calls interrupted in turn, the same reply wanted of each\n' "$call" "$count"
done

# Another holds the folder.
if command -v flock >/dev/null && grep -q '^flock' "$work/whole"; then
    lay_out
    mkdir -p -- "$place/data"
    run flock "$place/data/LOCK" "$program" "$place/data" "$place/shelf" "$@"
    got=$?
    [ "$got" -eq 4 ] || complain "another holds the folder: status $got, wanted 4"
    echo 'flock: another held the folder, status 4 wanted'
fi

if [ "$wrong" -gt 0 ]; then
    printf '%s wrong\n' "$wrong"
    exit 1
fi
echo 'each as stated'
