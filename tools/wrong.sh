#!/usr/bin/env bash
# Tries the edits of tests/wrong: bodies that can be proved, since contracts allow running out of memory anywhere, but that tests/refusals.py has
# to catch.
#
# It compiles each edit with nothing proved, which takes some minutes. The gate doesn't run this; run it if you change refusals.py.
#
# usage: tools/wrong.sh [EDIT..]     all of tests/wrong by default; exits with 1 if one isn't caught
set -euo pipefail
cd "$(dirname "$0")/.."

copy=$(mktemp -d)
trap 'rm -rf "$copy"' EXIT
[ $# -gt 0 ] || set -- tests/wrong/*/*.edit

status=0
for edit; do
    crate=$(basename "$(dirname "$edit")")
    rm -rf "${copy:?}"/*
    cp -r crates.txt tools "$copy"
    for source in crates/*/src; do
        mkdir -p "$copy/$(dirname "$source")"
        cp -r "$source" "$copy/$(dirname "$source")"
    done
    tests/edits.py "$edit" "$copy"
    "$copy/tools/unproved.py" plant_main "$copy/plant" > "$copy/log" 2>&1 || { cat "$copy/log" >&2; exit 1; }
    if tests/refusals.py "$copy/plant" --few > "$copy/log" 2>&1; then
        echo "$crate: $(basename "$edit" .edit): not caught"
        status=1
    else
        echo "$crate: $(basename "$edit" .edit): caught: $(head -n 1 "$copy/log")"
    fi
done
exit $status
