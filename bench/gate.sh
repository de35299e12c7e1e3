#!/bin/sh
# Runs the gate as `rt ci` does, and then prints what it cost: the processor minutes of each crate's proof, its tests and
# its must-fail edits, as rows of docs/GATE.md. A prover's time is what the system counts for its process and those that it
# forked. The words are those of `rt ci`; with --anew nothing is taken from earlier runs. It ends with the status of `rt ci`.
#   bench/gate.sh [--anew] [NAME..]
top=$(CDPATH= cd -- "$(dirname -- "$0")/.." && pwd) || exit 70
. "$top/bench/needs.sh"
needs 'the Rattle kit and python3' rt python3
cd "$top" && exec python3 bench/gate.py "$@"
