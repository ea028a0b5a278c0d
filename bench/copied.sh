# shellcheck source=tools/crates.sh
. "$(dirname "$0")/../tools/crates.sh"

# copied ROOT PROGRAM LIBRARIES CRATES..: copies these crates of the repository at ROOT, and the program of this script's folder PROGRAM, which
# uses them and these libraries, and changes to the folder of the copied program. Nothing is written at ROOT.
# The program's source is named `main.rt.txt`, since the gate reads every `.rt` file of the repository as part of a crate.
copied() {
    here=$(cd "$(dirname "$0")" && pwd)
    root=$(cd "$1" && pwd)
    program=$2
    libraries=$3
    shift 3
    copy=$(mktemp -d)
    trap 'rm -rf "$copy"' EXIT
    mkdir -p "$copy/crates/$program/src"
    for crate in "$@"; do
        cp -r "$root/crates/$crate" "$copy/crates/$crate"
        line_of "$root" "$crate"
    done > "$copy/crates.txt"
    echo "$program: $libraries $*" >> "$copy/crates.txt"
    cp "$here/$program/main.rt.txt" "$copy/crates/$program/src/main.rt"
    cp "$root/HANDLES" "$copy/HANDLES"
    cd "$copy/crates/$program"
}
