#!/bin/sh
# Kills runs of bin/qwkdoor-read at random (bench/read.py says how, and what must hold). It is no part of the gate, but
# for its short form.
# usage: bench/read.sh [KILLS]
# DOOR names another command that runs the program, in place of bin/qwkdoor.

top=$(readlink -f -- "$(dirname -- "$(readlink -f -- "$0")")/..")
if ! command -v python3 >/dev/null; then
    echo 'read: python3 is missing, so nothing is shown'
    exit 0
fi
if [ -z "${DOOR:-}" ]; then
    "$top/bin/qwkdoor" --build || exit 1
fi
QWKDOOR=${DOOR:-$top/.build/qwkdoor}
export QWKDOOR
exec python3 "$top/bench/read.py" "${1:-500}"
