# copied FOLDER CRATE..: copies the code and the proofs of these crates, with their lines of crates.txt.
copied() {
    into=$1
    shift
    for crate; do
        mkdir -p "$into/crates/$crate" || exit 70
        for part in src specs proofs; do
            [ ! -d "$top/crates/$crate/$part" ] || cp -r "$top/crates/$crate/$part" "$into/crates/$crate/"
        done
        grep "^$crate:" "$top/crates.txt" >>"$into/crates.txt"
    done
}
