#!/bin/sh
# Refuses one request for memory of a program after the other, and then all from each one on: tools at simulated modems, a simulated modem and a
# proxy of each kind until they serve, at a socket and at a node. Each ends with status 70 and `error: out of memory`, or as it ends where its words can't
# be read, or its link, its hub or a start fails, if it is they who lack memory. It leaves no socket and no child, and has printed a part of its text at most; or it does all that
# it does else. Status 1 where a run was otherwise. MODEMKIT names a program that is built already.
top=$(CDPATH= cd -- "$(dirname -- "$0")/.." && pwd) || exit 70
. "$top/bench/needs.sh"
needs "Debian: gcc, python3" cc python3
program=${MODEMKIT:-$("$top/bench/build.sh")} || exit 70
folder=$(mktemp -d) || exit 70
trap 'rm -rf "$folder"' EXIT
trap 'exit 130' INT TERM
cc -O2 -shared -fPIC -o "$folder/refuse.so" "$top/bench/refuse.c" || exit 70
python3 "$top/bench/refused.py" "$folder" "$program"
