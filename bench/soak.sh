#!/bin/sh
# Has a proxy of each kind serve well-behaved programs over real sockets, beside hostile ones and before a hostile modem: garbage, floods, messages
# that are cut anywhere, programs that vanish or are killed, want of descriptors, answers to nothing, late answers, lost modems. Each of
# the well-behaved has to get every byte that the manuals give it, by a model of its own (`soak.py`), and each of its requests has to come
# to the modem once. A line for each point, `ok` or `FAILED`, and what came to pass; fails where one did.
# MODEMKIT names a program that is built already. SECONDS_A_KIND is how long each kind is tried, 600 without it. SEED has all of it drawn from
# the number that an earlier run told. KINDS are the kinds that are tried.
top=$(CDPATH= cd -- "$(dirname -- "$0")/.." && pwd) || exit 70
. "$top/bench/needs.sh"
needs "Debian: python3" python3
program=${MODEMKIT:-$("$top/bench/build.sh")} || exit 70
folder=$(mktemp -d) || exit 70
trap 'rm -rf "$folder"' EXIT
trap 'exit 130' INT TERM
seed=${SEED:-$(date +%N)}
failed=0
for kind in ${KINDS:-qmi mbim}; do
    python3 -B "$top/bench/soak.py" "$folder" "$program" "$kind" "${SECONDS_A_KIND:-600}" "$seed" || failed=1
done
exit "$failed"
