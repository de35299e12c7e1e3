#!/bin/sh
# What an indication costs the MBIM proxy that one client subscribed to: alone, and beside 63 open clients with thirty CIDs each of another service. Best of three.
# MODEMKIT names a program that is built already.
top=$(CDPATH= cd -- "$(dirname -- "$0")/.." && pwd) || exit 70
. "$top/bench/needs.sh"
needs "Debian: python3" python3
program=${MODEMKIT:-$("$top/bench/build.sh")} || exit 70
folder=$(mktemp -d) || exit 70
trap 'rm -rf "$folder"' EXIT
trap 'exit 130' INT TERM
PYTHONDONTWRITEBYTECODE=1 python3 "$top/bench/indications.py" "$folder" "$program" "${INDICATIONS:-100000}"
