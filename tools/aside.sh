# For the scripts that prove and build a program over the crates which the merge gate doesn't know.

# bring_crates TO [WORD..]: the crates as they are into a folder, with what their checks kept, unless the folder has kept some
# itself; the words are further ones of tar
bring_crates() {
    local to=$1 top crate kept
    shift
    top=$(cd "$(dirname "${BASH_SOURCE[0]}")/.." && pwd)
    mkdir -p "$to/crates"
    rm -rf "$to"/crates/*/{src,specs,proofs}
    for crate in "$top"/crates/*/; do
        crate=$(basename "$crate")
        kept=()
        [ ! -d "$to/crates/$crate/out" ] || kept=(--exclude=out)
        tar -C "$top/crates" "${kept[@]}" "$@" --exclude=must-fail --exclude=more-must-fail -cf - "$crate" | tar -C "$to/crates" -xf -
    done
    cp "$top/HANDLES" "$top/crates.txt" "$to/"
}

# add_program TO NAME SOURCE LIBRARIES: one crate more, whose main.rt is the source
add_program() {
    mkdir -p "$1/crates/$2/src"
    cp "$3" "$1/crates/$2/src/main.rt"
    echo "$2: $4" >>"$1/crates.txt"
}
