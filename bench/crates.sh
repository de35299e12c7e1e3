#!/bin/sh
# Draws the crates for docs/ARCHITECTURE.md: each with the first sentence of its `src/lib.rt` (or `src/main.rt`), one step further in
# than the highest crate that it uses, and below that one. The page's own words say how to read it.
#   bench/crates.sh [--check | --write]         --check: ends with 1, and tells where, if the page has another drawing, or a crate with
#                                               definitions has no row in the page's table or in docs/PROVED.md
#                                               --write: puts the drawing into the page
top=$(CDPATH= cd -- "$(dirname -- "$0")/.." && pwd) || exit 70
. "$top/bench/needs.sh"
needs "Debian: python3" python3
cd "$top" && exec python3 bench/crates.py "$@"
