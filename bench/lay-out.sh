# For the benches beside it, which source it with the top of the repository in `top`.
# lay_out FOLDER PROGRAM 'CRATE ..' 'DEP ..': makes FOLDER a repository of its own, in which PROGRAM stands
# over copies of those crates and takes those libraries, and goes into the program's folder. An empty FOLDER
# is a temporary one, removed at the end.
lay_out() {
    work=${1:-$(mktemp -d)}
    [ -n "$1" ] || trap 'rm -rf "$work"' EXIT
    mkdir -p "$work/crates/$2/src" "$work/crates/$2/specs" "$work/crates/$2/proofs"
    cd "$work"
    [ -d .git ] || git init -q .
    cp "$top/HANDLES" .
    for crate in $3; do
        rm -rf "crates/$crate"
        mkdir -p "crates/$crate"
        for part in src specs proofs; do
            [ ! -d "$top/crates/$crate/$part" ] || cp -r "$top/crates/$crate/$part" "crates/$crate/"
        done
        grep "^$crate[: ]" "$top/crates.txt"
    done > crates.txt
    echo "$2: $4" >> crates.txt
    cd "crates/$2"
    echo > specs/Lib.antt
    echo > proofs/Lib.antt
}
