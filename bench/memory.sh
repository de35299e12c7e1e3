#!/bin/sh
# A proxy takes its memory at the opening: with less than that it ends with status 70 and leaves nothing; once it is open, it is
# given no more, and 64 clients are served as before.
# memory.sh [KIND..]: qmi and mbim, where none is named. MODEMKIT names a program that is built already.
top=$(CDPATH= cd -- "$(dirname -- "$0")/.." && pwd) || exit 70
. "$top/bench/needs.sh"
needs "Debian: gcc, python3" cc python3
program=${MODEMKIT:-$("$top/bench/build.sh")} || exit 70
folder=$(mktemp -d) || exit 70
trap 'rm -rf "$folder"' EXIT
trap 'exit 130' INT TERM
cc -O2 -o "$folder/qmi_load" "$top/bench/load.c" && cc -O2 -o "$folder/qmi_modem" "$top/bench/answering_modem.c" || exit 70
cc -O2 -o "$folder/mbim_load" "$top/bench/mbim_load.c" && cc -O2 -o "$folder/mbim_modem" "$top/bench/answering_mbim.c" || exit 70
for kind in ${*:-qmi mbim}; do
    python3 "$top/bench/memory.py" "$folder" "$program" "$kind" || exit
done
