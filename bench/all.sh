#!/bin/sh
# Runs all benches of time in turn, and prints one table of what they found: the seconds of our program, and those of
# `cat` and `sha256sum` of the same bytes where a bench takes them. What each bench says itself goes to standard error.
# A second table has what growth.sh found: the seconds at half a size and at the whole size, and how many times as long
# the whole takes. edge.sh, gate.sh, kill.sh, memory.sh, multimail.sh, power.sh, read.sh, shelf.sh and upgrade.sh are no
# benches of the program's time, so they are left out. It is no part of the gate.
# usage: bench/all.sh [RUNS]    how often a command is timed, in the benches that take it

top=$(dirname -- "$(readlink -f -- "$0")")/..
TABLE=$(mktemp) && GROWTH=$(mktemp) || exit 1
export TABLE GROWTH
trap 'rm -f -- "$TABLE" "$GROWTH"' EXIT
trap 'exit 1' HUP INT TERM
status=0

for bench in "$top"/bench/*.sh; do
    case ${bench##*/} in
    all.sh | best.sh | edge.sh | gate.sh | kill.sh | memory.sh | multimail.sh) continue ;;
    power.sh | read.sh | shelf.sh | upgrade.sh) continue ;;
    esac
    printf '%s\n' "== ${bench##*/}" >&2
    if ! sh "$bench" "$@" >&2 </dev/null; then
        printf '%s\n' "${bench##*/} failed" >&2
        status=1
    fi
done

printf '%s, %s, %s processors, %s GB of memory, %s\n\n' "$(date -u +%Y-%m-%d)" \
    "$(sed -n 's/^model name[^:]*: //p' /proc/cpuinfo | head -n 1)" "$(getconf _NPROCESSORS_ONLN)" \
    "$(awk '/^MemTotal:/ { printf "%.1f", $2 * 1024 / 1e9 }' /proc/meminfo)" "$(uname -sr)"
awk -F '\t' '
    function seconds(text) { return text == "-" ? text : sprintf("%.4f", text) }
    function line(work, ours, copied, hashed, ratio) {
        printf "| %-46s | %9s | %9s | %13s | %16s |\n", work, ours, copied, hashed, ratio
    }
    BEGIN {
        line("work", "ours (s)", "cat (s)", "sha256sum (s)", "ours / sha256sum")
        print "|---|--:|--:|--:|--:|"
    }
    { line($1, seconds($2), seconds($3), seconds($4), $4 + 0 > 0 ? sprintf("%.2f", $2 / $4) : "-") }' "$TABLE"
awk -F '\t' '
    NR == 1 {
        printf "\n| %-50s | %9s | %9s | %12s |\n", "the same work at two sizes", "half (s)", "whole (s)", "whole / half"
        print "|---|--:|--:|--:|"
    }
    { printf "| %-50s | %9.4f | %9.4f | %12s |\n", $1, $2, $3, $4 }' "$GROWTH"
exit "$status"
