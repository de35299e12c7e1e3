#!/bin/sh
# One proxy for several modems (docs/QMI-PROXIES.md), over real sockets and pseudo terminals. A line for each point, `ok` or `FAILED`, and
# for each figure; fails where a point or a limit did.
#   tools    40 tools of two devices at once, ours and libqmi's own, print what each prints at a proxy of its own device: before two
#            simulated modems, and at two nodes with four pumps
#   rough    words that are refused, devices that are away or are lost, programs and modems that mean ill
#   speed    beside `qmi-proxy`: with one device, and with eight on one core; and the memory of each
# proxies.sh [PART..]: all of them, where none is named. MODEMKIT names a program that is built already.
top=$(CDPATH= cd -- "$(dirname -- "$0")/.." && pwd) || exit 70
. "$top/bench/needs.sh"
needs "Debian: gcc, python3, socat, util-linux" cc python3 socat taskset unshare
program=${MODEMKIT:-$("$top/bench/build.sh")} || exit 70
folder=$(mktemp -d) || exit 70
trap 'rm -rf "$folder"' EXIT
trap 'exit 130' INT TERM
cc -O2 -o "$folder/load" "$top/bench/load.c" && cc -O2 -o "$folder/modem" "$top/bench/answering_modem.c" || exit 70
python3 -B "$top/bench/proxies.py" "$folder" "$program" ${*:-tools rough speed}
