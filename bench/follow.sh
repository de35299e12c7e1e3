#!/bin/sh
# `qmicli --tables FILE --request NAME --follow` over real sockets. A line for each point, `ok` or `FAILED`, and for each figure; fails where a
# point or a limit did.
#   shown    which of the messages behind the answer are shown, that each is shown at once, and how
#   ends     each way in which it ends, its status and line, and whether the client id is given back
#   proxy    two that follow through our proxy, and what the proxy does with their client ids; behind libqmi's own proxy likewise, and two
#            that follow two modems through one
#   flood    how many indications a second it shows, by the clock and by the processor, and that its memory stays
# follow.sh [PART..]: all of them, where none is named. MODEMKIT names a program that is built already. INDICATIONS: of a flood (1000000).
top=$(CDPATH= cd -- "$(dirname -- "$0")/.." && pwd) || exit 70
. "$top/bench/needs.sh"
needs "Debian: python3" python3
program=${MODEMKIT:-$("$top/bench/build.sh")} || exit 70
folder=$(mktemp -d) || exit 70
trap 'rm -rf "$folder"' EXIT
trap 'exit 130' INT TERM
python3 -B "$top/bench/follow.py" "$folder" "$program" "${QMI_PROXY:-/usr/libexec/qmi-proxy}" ${*:-shown ends proxy flood}
