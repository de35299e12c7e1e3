#!/bin/sh
# Treats the program roughly over real sockets: what stands at the path of a proxy's socket, who may connect to
# it, what is left of it after each end, and standard streams that are closed from the start. A line for each
# point, `ok` or `FAILED`; fails where one did.
# MODEMKIT names a program that is built already.
top=$(CDPATH= cd -- "$(dirname -- "$0")/.." && pwd) || exit 70
. "$top/bench/needs.sh"
needs "Debian: python3" python3
program=${MODEMKIT:-$("$top/bench/build.sh")} || exit 70
folder=$(mktemp -d) || exit 70
trap 'rm -rf "$folder"' EXIT
trap 'exit 130' INT TERM
python3 "$top/bench/rough.py" "$folder" "$program"
