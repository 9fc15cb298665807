#!/usr/bin/env bash
# Where the programs stand: a part of demo/build and demo/start.
demo=$(dirname "$(readlink -f "${BASH_SOURCE[0]}")")
crates=$demo/../crates
kept=$demo/out

# is_newest PROGRAM KIND..: the program is there, and newer than crates.txt and all files of these kinds.
is_newest() {
    local program=$1 names=(-name crates.txt)
    shift
    for kind in "$@"; do
        names+=(-o -name "*.$kind")
    done
    [ -x "$program" ] || return
    [ -z "$(find "$crates.txt" "$crates" -name out -prune -o \( "${names[@]}" \) -newer "$program" -print -quit)" ]
}

# program_of NAME: the program that the gate proved and left, else the copy that demo/build keeps, each where it is newer than its sources.
# Nothing where there is neither.
program_of() {
    if is_newest "$crates/$1/out/$1" rt antt; then
        printf '%s\n' "$crates/$1/out/$1"
    elif is_newest "$kept/$1" rt; then
        printf '%s\n' "$kept/$1"
    fi
}
