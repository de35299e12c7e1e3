#!/bin/sh
# Has programs go without releasing their client ids, over real sockets: with `--release-after` the proxy releases them when
# their time is over, and without it never. A line for each point, `ok` or `FAILED`; fails where one did.
# MODEMKIT names a program that is built already.
top=$(CDPATH= cd -- "$(dirname -- "$0")/.." && pwd) || exit 70
. "$top/bench/needs.sh"
needs "Debian: python3" python3
program=${MODEMKIT:-$("$top/bench/build.sh")} || exit 70
folder=$(mktemp -d) || exit 70
trap 'rm -rf "$folder"' EXIT
trap 'exit 130' INT TERM
python3 "$top/bench/release.py" "$folder" "$program"
