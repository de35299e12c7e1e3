#!/bin/sh
# Serves many programs over real sockets: 64 whose messages come in parts, one that doesn't read for a while, and all of
# them while the modem is lost and comes back; first with a modem behind a socket, and then with one behind a pseudo terminal,
# which the proxy reaches through its pumps. A line for each point, `ok` or `FAILED`; fails where one did.
# What stands at the path of a proxy's socket, its rights and its end are tried by rough.sh, and tools at a node by node.sh.
# MODEMKIT names a program that is built already. SEED has the messages cut as in an earlier run, which told it.
top=$(CDPATH= cd -- "$(dirname -- "$0")/.." && pwd) || exit 70
. "$top/bench/needs.sh"
needs "Debian: python3" python3
program=${MODEMKIT:-$("$top/bench/build.sh")} || exit 70
folder=$(mktemp -d) || exit 70
trap 'rm -rf "$folder"' EXIT
trap 'exit 130' INT TERM
python3 "$top/bench/outside.py" "$folder" "$program" "${SEED:-$(date +%N)}"
