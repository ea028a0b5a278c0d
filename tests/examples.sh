#!/usr/bin/env bash
# Runs the commands of each example over a new retain file, the cold one first, and compares the reports. Each run writes a trace, whose replay
# in one thread must report the same.
#
# usage: tests/examples.sh PLANT     PLANT is the built program
set -euo pipefail

plant=$(realpath "$1")
examples=$(realpath "$(dirname "$0")/../examples")
work=$(mktemp -d)
trap 'rm -rf "$work"' EXIT

# again WORDS: replays the trace of the run with these words
again() {
    [ "$1 $3" = "run --plant" ] || { echo "examples.sh: no source and plant in: $*" >&2; exit 1; }
    "$plant" replay "$2" --plant "$4" --trace trace
}

count=0
for example in "$examples"/*/; do
    cp -r "$example" "$work/now"
    cd "$work/now"
    for command in *.command; do
        read -ra words < "$command"
        "$plant" "${words[@]}" --trace trace > reported
        diff "${command%.command}.report" reported || { echo "examples.sh: $example reports something else" >&2; exit 1; }
        again "${words[@]}" > replayed
        diff <(sed '/^acked /d' reported) replayed || { echo "examples.sh: the replay of $example reports something else" >&2; exit 1; }
        count=$((count + 1))
    done
    cd "$work"
    rm -r "$work/now"
done
[ "$count" -ge 18 ] || { echo "examples.sh: only $count runs" >&2; exit 1; }
echo "examples.sh: $count runs and their replays as expected"
