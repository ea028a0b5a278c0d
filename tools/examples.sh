#!/usr/bin/env bash
# Runs each example on the built program, and prints its description, its words and its report. Exits with 1 if a report differs from the
# example's.
#
# usage: tools/examples.sh [PLANT]     PLANT is the built program, out/plant by default
set -euo pipefail

top=$(dirname "$0")/..
plant=${1:-$top/out/plant}
[ -x "$plant" ] || { echo "examples.sh: there is no $plant: 'make build' makes it" >&2; exit 1; }
plant=$(realpath "$plant")
cd "$top"
work=$(mktemp -d)
trap 'rm -rf "$work"' EXIT

# shown TEXT: its first comment, without the brackets
shown() { sed -n '1,/\*)/p' "$1" | sed 's/^(\* *//; s/ *\*)$//; s/^   //'; }

count=0
for example in examples/*/; do
    name=$(basename "$example")
    cp -r "$example" "$work/$name"
    echo "== $name"
    shown "$example/$name.st"
    for command in "$example"*.command; do
        report=${command%.command}.report
        echo
        echo "plant $(cat "$command")"
        read -ra words < "$command"
        (cd "$work/$name" && "$plant" "${words[@]}") | tee "$work/printed"
        diff "$report" "$work/printed" > "$work/difference" \
            || { echo "examples.sh: the report differs from $report:" >&2; cat "$work/difference" >&2; exit 1; }
        count=$((count + 1))
    done
    echo
done
echo "examples.sh: $count reports as expected"
