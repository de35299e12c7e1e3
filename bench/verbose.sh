#!/bin/sh
# `qmicli -v` and `mbimcli -v` over real sockets, at simulated modems of both kinds. A line for each point, `ok` or `FAILED`; fails where a point did.
#   told     that the lines of each direction are what `dissect` prints of the bytes that went over the socket, that they stand before the line of
#            the status, and that standard output and the status are those without `-v`; directly, through our proxy, and of a message by tables
#   full     that a link that takes more than is noted does what it does, and that `..` stands behind what is told
#   faults   what the system says of a socket that isn't there, that nobody listens at, that may not be opened, and that is reset
#   nodes    what the pumps of a device node say: of one that isn't there, that may not be opened, or written, that has no device, that is a folder, and
#            that is in use; and that without `-v` they say what they say without
# verbose.sh [PART..]: all, where none is named. MODEMKIT names a program that is built already.
top=$(CDPATH= cd -- "$(dirname -- "$0")/.." && pwd) || exit 70
. "$top/bench/needs.sh"
needs "Debian: python3" python3
program=${MODEMKIT:-$("$top/bench/build.sh")} || exit 70
folder=$(mktemp -d) || exit 70
trap 'rm -rf "$folder"' EXIT
trap 'exit 130' INT TERM
python3 -B "$top/bench/verbose.py" "$folder" "$program" ${*:-told full faults nodes}
