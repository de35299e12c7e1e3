#!/bin/sh
# What hostile peers cost the QMI proxy and those beside it: a flood of messages for nobody, clients that send in small pieces, and programs
# that connect and go at once; and how long the dearest lists of subscriptions hold the MBIM proxy and a simulated modem up.
# MODEMKIT names a program that is built already. Status 1 where a figure is beyond its limit, which is printed beside it.
top=$(CDPATH= cd -- "$(dirname -- "$0")/.." && pwd) || exit 70
. "$top/bench/needs.sh"
needs "Debian: gcc, python3, util-linux" cc python3 taskset
program=${MODEMKIT:-$("$top/bench/build.sh")} || exit 70
folder=$(mktemp -d) || exit 70
trap 'rm -rf "$folder"' EXIT
trap 'exit 130' INT TERM
cc -O2 -o "$folder/load" "$top/bench/load.c" && cc -O2 -o "$folder/modem" "$top/bench/answering_modem.c" || exit 70
python3 "$top/bench/hostile.py" "$folder" "$program"
