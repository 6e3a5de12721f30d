# Sourced by the scripts that build a throw-away program over a copy of this repository's crates.
#
#     throw_away NAME CRATES DEPENDENCIES
#
# makes a repository in a new folder, $work, that is removed when the script ends: a copy of each of CRATES with what
# earlier checks kept of it, and the program NAME, which stands on DEPENDENCIES and whose folder is $program. $top is the
# top of this repository.
throw_away() {
    top=$(cd "$(dirname "${BASH_SOURCE[0]}")/.." && pwd)
    work=$(mktemp -d)
    trap 'rm -rf "$work"' EXIT
    git -C "$work" init -q
    program="$work/crates/$1"
    mkdir -p "$program/src" "$program/specs" "$program/proofs"
    local crate
    for crate in $2; do
        mkdir "$work/crates/$crate"
        (cd "$top/crates/$crate" && cp -a src specs proofs out "$work/crates/$crate/" 2>/dev/null) || true
        grep "^$crate:" "$top/crates.txt" >> "$work/crates.txt"
    done
    echo "$1: $3" >> "$work/crates.txt"
}
