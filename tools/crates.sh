# shellcheck shell=bash
# Functions over crates.txt, for scripts that source this file.

# below ROOT NAMES: these crates of the repository at ROOT, separated by blanks, and all crates below them, in the order of crates.txt
below() {
    awk -v names="$2" '
        /^[a-z]/ {
            split($0, sides, ":")
            split(sides[1], head, " ")
            uses[head[1]] = sides[2]
            order[++count] = head[1]
        }
        END {
            last = split(names, queue, " ")
            for (at = 1; at <= last; at++) {
                if (queue[at] in wanted || !(queue[at] in uses)) continue
                wanted[queue[at]]
                found = split(uses[queue[at]], more, " ")
                for (k = 1; k <= found; k++) queue[++last] = more[k]
            }
            for (at = 1; at <= count; at++) if (order[at] in wanted) print order[at]
        }' "$1/crates.txt"
}

# line_of ROOT CRATE: the line of this crate
line_of() {
    grep -E "^$2( may_wait=[0-9]+)?:" "$1/crates.txt"
}

# copy_parts NAMES TO PARTS..: makes the folder TO a repository of these crates of this repository, with these parts of each
copy_parts() {
    local names=$1 to=$2 crate part
    shift 2
    mkdir -p "$to"
    for crate in $names; do
        mkdir -p "$to/crates/$crate"
        for part; do
            [ ! -e "crates/$crate/$part" ] || cp -r "crates/$crate/$part" "$to/crates/$crate"
        done
        line_of . "$crate"
    done > "$to/crates.txt"
    cp HANDLES "$to"
}

# is_new PROGRAM PARTS..: the program exists, and neither crates.txt nor one of these parts of a crate is newer
is_new() {
    local program=$1 part parts=(crates.txt)
    shift
    for part; do parts+=(crates/*/"$part"); done
    [ -x "$program" ] && [ -z "$(find "${parts[@]}" -newer "$program" -print -quit)" ]
}
