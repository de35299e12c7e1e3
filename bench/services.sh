#!/bin/sh
# Each message of each of libqmi's descriptions, with `qmicli --tables FILE --request NAME --input JSON --json`: its TLVs have drawn
# values, the request's bytes are compared with those that libqmi's rules give, and the values that are printed of an answer with
# drawn TLVs with those. A message that holds what isn't known is to be refused. Then `--follow` is to show each indication of the file, with drawn TLVs,
# behind the answer to a message, one of an unknown form by its id. A line for each file, and for its indications. Fails where anything differs.
#   bench/services.sh FOLDER [ROUNDS]     FOLDER: libqmi's `data`, as `apt-get source libqmi` has it; each message is sent ROUNDS times (3)
# MODEMKIT names a program that is built already. SEED draws other values.
top=$(CDPATH= cd -- "$(dirname -- "$0")/.." && pwd) || exit 70
. "$top/bench/needs.sh"
needs "Debian: python3" python3
[ -e "$1/qmi-common.json" ] || { echo "usage: bench/services.sh FOLDER [ROUNDS]; libqmi's descriptions aren't in '$1'; nothing was tried"; exit 0; }
program=${MODEMKIT:-$("$top/bench/build.sh")} || exit 70
exec python3 "$top/bench/services.py" "$program" "$1" "${2:-3}"
