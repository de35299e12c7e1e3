#!/bin/sh
# What it costs the MBIM proxy that one of 64 open programs with 30 pairs each changes one pair of its list: processor time, the best of
# three, and user instructions, where the lists have nothing in common and where they have all but one pair in common. The modem, which
# is asked for each new merge, takes all.
# changes.sh [PROGRAM..]: beside other programs, as one from before. MODEMKIT names a program that is built already.
top=$(CDPATH= cd -- "$(dirname -- "$0")/.." && pwd) || exit 70
. "$top/bench/needs.sh"
needs "Debian: python3, valgrind" python3 valgrind
program=${MODEMKIT:-$("$top/bench/build.sh")} || exit 70
folder=$(mktemp -d) || exit 70
trap 'rm -rf "$folder"' EXIT
trap 'exit 130' INT TERM
PYTHONDONTWRITEBYTECODE=1 python3 "$top/bench/changes.py" "$folder" "${CHANGES:-20000}" "$program" "$@"
