#!/usr/bin/env bash
# Compiles the programs of tests and runs them: the rows of tests/test_tables, and the calls of tests/refused_calls. Both use the crates alone,
# below the built program. Nothing of them is proved: what a row shows is a test, whatever is proved of the program that asks.
#
# usage: tests/programs.sh     exits with 1 if a row is answered otherwise, a call has another answer, or a program can't be compiled
set -euo pipefail
cd "$(dirname "$0")/.."
# shellcheck source=tools/crates.sh
. tools/crates.sh

# compile NAME: compiles a program to out/tests/NAME, unless that is newer than all sources. If the kit can't compile without proofs, it says
# so and ends the shell
compile() {
    local status=0
    if ! is_new "out/tests/$1" src || [ -n "$(find tests/programs.txt "tests/$1/src" -newer "out/tests/$1" -print -quit)" ]; then
        tools/unproved.py "$1" "out/tests/$1" -O2 || status=$?
    fi
    if [ $status -eq 3 ]; then
        echo "programs.sh: this kit can't compile $1 without proofs, so it wasn't run"
        exit 0
    fi
    return $status
}

# tables: asks all rows, and compares files, scenes and the count with tests/test_tables/expected.txt
tables() {
    compile test_tables || return
    (cd tests/test_tables/data && ../../../out/tests/test_tables < ../files.txt) > "$outputs/found" || return
    diff tests/test_tables/expected.txt "$outputs/found" || return
    echo "test_tables: $(tail -n 1 "$outputs/found")"
}

calls() {
    compile refused_calls || return
    tests/refused_calls.py out/tests/refused_calls
}

mkdir -p out/tests
outputs=$(mktemp -d)
trap 'rm -rf "$outputs"' EXIT
failed=0
(tables) > "$outputs/tables" 2>&1 &
running=$!
(calls) > "$outputs/calls" 2>&1 || failed=1
wait "$running" || failed=1
cat "$outputs/tables" "$outputs/calls"
exit $failed
