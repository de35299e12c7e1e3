#!/bin/sh
# Proves and builds the program where that wasn't done since the last change, and prints its path. The program's crates alone
# are proved, several side by side, on a copy that stays in the user's cache folder (MODEMKIT_BUILD names another). To a
# terminal it tells how far it is: in crates, in the processor minutes that docs/GATE.md has for them, and how long the rest may take.
top=$(CDPATH= cd -- "$(dirname -- "$0")/.." && pwd) || exit 70
build=${MODEMKIT_BUILD:-${XDG_CACHE_HOME:-$HOME/.cache}/modemkit/$(printf %s "$top" | cksum | tr ' ' -)}
program=$build/crates/modemkit/out/modemkit

# The program's crates, each behind those that it uses.
crates() {
    awk '/^[a-z]/ { uses[substr($1, 1, length($1) - 1)] = $0 }
        function visit(name, words, count, at) {
            if (!(name in uses) || seen[name]++) return
            count = split(uses[name], words, " ")
            for (at = 2; at <= count; at++) visit(words[at])
            print name
        }
        END { visit("modemkit") }' "$top/crates.txt"
}
# What of the program's crates changed since it was built, or the program itself where it isn't built.
changed() {
    [ -x "$program" ] || { echo "$program"; return; }
    find "$top/crates.txt" $(crates | sed "s|^|$top/crates/|") -newer "$program" \
        \( -name '*.rt' -o -name '*.antt' -o -name crates.txt \) -print -quit
}
# The program's crates as they stand, without their must-fail edits.
copy() {
    # (rt takes the folder for the top of a checkout by its .git)
    rm -rf "$build/crates" && mkdir -p "$build/crates" "$build/.git" && cp "$top/HANDLES" "$build/" || return
    crates | while read -r crate; do
        mkdir "$build/crates/$crate" || return
        for part in src specs proofs args status stdout; do
            [ ! -e "$top/crates/$crate/$part" ] || cp -r "$top/crates/$crate/$part" "$build/crates/$crate/" || return
        done
        grep "^$crate:" "$top/crates.txt" || return
    done >"$build/crates.txt"
}
# The processor minutes, in hundredths, of these crates, which come one a line, as docs/GATE.md has them.
minutes() {
    awk -F '|' 'NR == FNR { if ($2 ~ /`/) { gsub(/[` ]/, "", $2); of[$2] = $6 } next }
        { sum += $1 in of ? of[$1] : 0.5 } END { printf "%d\n", sum * 100 }' "$top/docs/GATE.md" -
}
# Hands on what rt writes, and tells a person of each crate that is proved, and where rt waits for another build.
tell() {
    count=$(crates | wc -l) all=$(crates | minutes) proved=0 spent=0 fresh=0 begun=$(date +%s)
    while IFS= read -r line; do
        printf '%s\n' "$line"
        case $line in
        *": its tests "*) continue ;;
        *"waiting for"*) printf '%s\n' "${line#rt: }" >&2; continue ;;
        "rt: "*" proved" | "rt: "*" is kept: "*) crate=${line#rt: } crate=${crate%% *} ;;
        *) continue ;;
        esac
        cost=$(echo "$crate" | minutes) proved=$((proved + 1)) spent=$((spent + cost))
        case $line in *" proved") fresh=$((fresh + cost)) ;; esac
        [ -t 2 ] && [ "$fresh" -gt 0 ] || continue
        left=$((($(date +%s) - begun) * (all - spent) / fresh))
        echo "proved $crate: $proved of $count crates, $((spent / 100)) of $((all / 100)) processor minutes; some $(((left + 59) / 60)) minutes left" >&2
    done
}

# One build at a time: who comes meanwhile waits, and finds the program. It is said where something is being built, and not where another
# only looks whether it has to.
exec 9<"$top/crates.txt"
if command -v flock >/dev/null 2>&1 && ! flock -n 9; then
    [ ! -e "$build/building" ] || echo "the program is being built already, from $top; waiting for that .." >&2
    flock 9
fi
rm -f "$build/building"
if [ -n "$(changed)" ]; then
    command -v rt >/dev/null 2>&1 || { echo "rt, the command of the Rattle kit, isn't on the PATH" >&2; exit 70; }
    echo "proving and building the program; on a new machine that takes some $(($(crates | minutes) / 100)) processor minutes, shared by its processors .." >&2
    log=$(mktemp) || exit 70
    trap 'rm -f "$log" "$build/building"' EXIT
    trap 'exit 130' INT TERM
    mkdir -p "$build" && : >"$build/building" && copy || exit 70
    # `rt ci` proves the copy's crates side by side, and keeps what it passed, also for the gate. As root it runs programs as nobody
    (cd "$build" && rt ci 9<&-) 2>&1 | tell >"$log"
    [ -x "$program" ] || { grep -a 'NOT PROVED' "$log" >&2; tail -n 20 "$log" >&2; exit 70; }
fi
echo "$program"
