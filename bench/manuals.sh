#!/bin/sh
# Runs each example of the manuals and of the README at simulated modems with the profile of profiles/, and compares each line that is
# printed with the manual's. It tells of each that differs, and how many examples it passed over, such as those that need a real
# node; it fails where a line differs.
#   bench/manuals.sh [--write] [MANUAL..]       --write: puts what was printed into the manuals
# MODEMKIT names a program that is built already.
top=$(CDPATH= cd -- "$(dirname -- "$0")/.." && pwd) || exit 70
. "$top/bench/needs.sh"
needs "Debian: python3" python3
program=${MODEMKIT:-$("$top/bench/build.sh")} || exit 70
python3 "$top/bench/manuals.py" "$top" "$program" "$@"
