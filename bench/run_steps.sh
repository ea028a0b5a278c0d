#!/usr/bin/env bash
# Reports the cost of an execution apart from its statements: the nanoseconds of a latch, a take, a run and a commit, each the mean of a series,
# in the best of three series, for a program without statements and for one that adds 1, in layouts of 10, 100, 1,000 and 4,000 slots, of which
# the program names only one. Give the root of the repository.
set -euo pipefail
. "$(dirname "$0")/copied.sh"
# shellcheck disable=SC2046 # names without blanks
copied "$1" steps 'anyhow thiserror' $(below "$1" 'config serial_core')

# text STATEMENT SLOTS: a program of the statement, with SLOTS globals
text() {
    local k
    echo "PROGRAM Add VAR_EXTERNAL n : DINT; END_VAR $1 END_PROGRAM"
    echo "CONFIGURATION C VAR_GLOBAL n : DINT;"
    for ((k = 1; k < $2; k++)); do echo "other$k : DINT;"; done
    echo "END_VAR RESOURCE R ON CPU TASK T (INTERVAL := T#100ms, PRIORITY := 0); PROGRAM P WITH T : Add; END_RESOURCE END_CONFIGURATION"
}

words=()
for slots in 10 100 1000 4000; do
    text '' $slots > "$copy/empty_$slots"
    text 'n := n + 1;' $slots > "$copy/adds_$slots"
    words+=("$copy/empty_$slots" 2000 "$copy/adds_$slots" 2000)
done
rt run -- "${words[@]}" | sed "s#^$copy/##"
