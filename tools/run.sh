#!/usr/bin/env bash
# Runs the dosing pump over a real retain file: a cold start, and then a warm one, which goes on from the kept values.
#
# The proved program runs if it exists and is newer than its sources. Otherwise the script compiles the current sources without proofs, and
# leaves out/plant-unproved. If the kit can't compile in this way, `rt try` compiles and runs the part that `plant run` needs, and leaves no
# program.
#
# usage: tools/run.sh [--first]     --first takes the last of these three ways
set -euo pipefail
cd "$(dirname "$0")/.."
# shellcheck source=tools/crates.sh
. tools/crates.sh

work=$PWD/out/dosing
# the crates that tools/first_run uses directly
libraries='source_run'
rm -rf "$work"
mkdir -p "$work/cases"
cp examples/dosing/* "$work"

# both PLANT: makes the two runs with this program
both() {
    cd "$work"
    for start in cold warm; do
        echo "== $start"
        # shellcheck disable=SC2046 # a command is words without blanks
        "$1" $(cat $start.command)
    done
}

# first_run: makes the two runs with one `rt try` of the part that `plant run` needs; the words of the examples get the paths of their files
first_run() {
    for start in cold warm; do
        : > "$work/cases/$start"
        tr ' ' '\n' < "$work/$start.command" | sed -E "s#.*\.(st|csv|retain)\$#$work/&#" > "$work/cases/$start.args"
    done
    copy=$(mktemp -d)
    trap 'rm -rf "$copy"' EXIT
    copy_parts "$(below . "$libraries")" "$copy" src
    echo "first_run: $libraries" >> "$copy/crates.txt"
    mkdir -p "$copy/crates/first_run/src"
    cp tools/first_run/main.rt.txt "$copy/crates/first_run/src/main.rt"
    cd "$copy/crates/first_run"
    rt try --cases "$work/cases" 2> "$work/tried" || { cat "$work/tried" >&2; return 1; }
}

plant=out/plant status=0
if [ "${1-}" = --first ]; then
    status=3
elif ! is_new $plant src specs proofs; then
    plant=out/plant-unproved
    if is_new out/unproved/plant src; then
        echo "This run is not proved: $plant is already compiled, and no source is newer. 'make build' proves the program."
    else
        echo "This run is not proved: it compiles the current sources, in about two minutes. 'make build' proves the program."
    fi
    tools/unproved.sh || status=$?
fi
if [ $status -eq 3 ]; then
    plant=
    [ "${1-}" = --first ] || echo "This kit can't compile in the way of tools/unproved.py."
    echo "This run is not proved, and leaves no program: 'rt try' compiles the part that 'plant run' needs."
elif [ $status -ne 0 ]; then
    exit $status
fi

if [ -n "$plant" ]; then both "$PWD/$plant"; else first_run; fi | tee "$work/printed"
sed 's/^== .*//' "$work/printed" | diff -B - <(cat "$work/cold.report" "$work/warm.report") > "$work/difference" \
    || { echo "run.sh: the reports differ from those of examples/dosing" >&2; exit 1; }
echo "The retain file is out/dosing/dosing.retain."
[ -z "$plant" ] || echo "The program is $plant, for your own texts as well."
