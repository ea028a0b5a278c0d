#!/usr/bin/env bash
# Formats the sources of the programs of tests, which rt fmt doesn't find under their names.
#
# usage: tests/format.sh
set -euo pipefail
cd "$(dirname "$0")"

for program in test_tables refused_calls; do
    copy=$(mktemp -d)
    mkdir "$copy/src"
    for source in "$program"/src/*.rt.txt; do
        cp "$source" "$copy/src/$(basename "$source" .txt)"
    done
    (cd "$copy" && rt fmt)
    for source in "$copy"/src/*.rt; do
        cmp -s "$source" "$program/src/$(basename "$source").txt" || cp "$source" "$program/src/$(basename "$source").txt"
    done
    rm -r "$copy"
done
