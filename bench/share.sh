#!/bin/sh
# Has programs ask for more than their share, over real sockets, at both proxies: what passes it is refused, and nobody else
# notices. A line for each point, `ok` or `FAILED`; fails where one did.
# MODEMKIT names a program that is built already.
top=$(CDPATH= cd -- "$(dirname -- "$0")/.." && pwd) || exit 70
. "$top/bench/needs.sh"
needs "Debian: python3" python3
program=${MODEMKIT:-$("$top/bench/build.sh")} || exit 70
folder=$(mktemp -d) || exit 70
trap 'rm -rf "$folder"' EXIT
trap 'exit 130' INT TERM
python3 "$top/bench/share.py" "$folder" "$program"
