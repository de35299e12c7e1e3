#!/bin/sh
# Lines that aren't blank or comments, and must-fail edits, crate by crate.
top=$(CDPATH= cd -- "$(dirname -- "$0")/.." && pwd) || exit 70
count() {
    [ -d "$1" ] || { echo 0; return; }
    find "$1" -name "$2" -type f -exec cat {} + | grep -cvE '^[[:space:]]*(//.*|--.*)?$'
}
printf '%-16s %6s %6s %6s %6s\n' crate code specs proofs edits
for crate in "$top"/crates/*/; do
    printf '%-16s %6s %6s %6s %6s\n' "$(basename "$crate")" "$(count "$crate/src" '*.rt')" \
        "$(count "$crate/specs" '*.antt')" "$(count "$crate/proofs" '*.antt')" \
        "$(find "$crate" -path '*/must-fail/*.edit' | wc -l)"
done
