#!/bin/sh
# Tries the must-fail edits of these crates, or of all that have any: beside those of the gate, in crates/NAME/must-fail,
# the others, in crates/NAME/tries. The prover must refuse each of them. It works on a copy, over what checks kept, and ends
# with status 1 where an edit isn't refused, can't be read, or wasn't tried.
#   bench/edits.sh [NAME..]
top=$(CDPATH= cd -- "$(dirname -- "$0")/.." && pwd) || exit 70
. "$top/bench/needs.sh"
needs 'the Rattle kit' rt
copy=$(mktemp -d) || exit 70
trap 'rm -rf "$copy"' EXIT
trap 'exit 130' INT TERM
cp "$top/crates.txt" "$top/HANDLES" "$copy/" && mkdir "$copy/crates" || exit 70
for crate in "$top"/crates/*/; do
    name=$(basename "$crate")
    mkdir "$copy/crates/$name" || exit 70
    for part in src specs proofs must-fail; do
        [ ! -d "$crate$part" ] || cp -r "$crate$part" "$copy/crates/$name/" || exit 70
    done
    [ ! -d "${crate}tries" ] || { mkdir -p "$copy/crates/$name/must-fail" && cp "${crate}tries/"*.edit "$copy/crates/$name/must-fail/"; } || exit 70
done
cd "$copy" || exit 70
[ $# -gt 0 ] || set -- $(ls -d crates/*/must-fail | cut -d/ -f2)
rt must-fail "$@"
