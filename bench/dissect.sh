#!/bin/sh
# How fast captures are shown: streams of ordinary answers, of QMI by the built-in tables and by libqmi's own description of WDS, where WDS_TABLES
# names that file (qmi-service-wds.json of libqmi's sources, which is read without its members `endian`, as those aren't known), and of MBIM; by processor time, best of three, and of MBIM beside tshark, where that is
# there. Then what a byte costs in a short and in a long stream, and in one message of 65,536 bytes with 20,000 TLVs beside ordinary ones: in
# instructions where valgrind is there, and else by time. Then the peak of memory at 1 MB and at 1 GB. Before all that, captures that are cut, mixed
# or none: how they end. Fails where the rate is under 30 MB a second (20 by WDS's file), ten times tshark's messages a second are missed, a byte costs
# a quarter more in the long stream or twice as much in the one message, memory grows with the length, or an end isn't as docs/DISSECT.md says.
#   bench/dissect.sh [MEGABYTES]      how long a stream of the rates is; 100 without it
# MODEMKIT names a program that is built already.
top=$(CDPATH= cd -- "$(dirname -- "$0")/.." && pwd) || exit 70
. "$top/bench/needs.sh"
needs "Debian: python3" python3
program=${MODEMKIT:-$("$top/bench/build.sh")} || exit 70
folder=$(mktemp -d) || exit 70
trap 'rm -rf "$folder"' EXIT
trap 'exit 130' INT TERM
python3 "$top/bench/dissect.py" "$folder" "$program" "${1:-100}"
