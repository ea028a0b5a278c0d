#!/usr/bin/env bash
# The gate. It checks that all edits apply, that drops do nothing but release memory, and that the documents are in plain English. Then it
# runs every proof from scratch, the edits that the prover must refuse, the programs of tests, and the built program over real files. Its last line is
# 'N passed, M failed', and it exits with 0 only if everything passed.
set -euo pipefail
cd "$(dirname "$0")/.."

plant=crates/plant_main/out/plant_main

tests/edits.py
tests/drops.py
tests/english.py
echo "free disk: $(df -m --output=avail . | tail -n 1 | tr -d ' ') MB; the proofs of all crates take about 25,000"

# rt reserves three times the memory that a large crate needs, and so leaves processors idle. RT_JOBS sets how many checks may run in
# parallel: one per processor, if each has five gigabytes.
if [ -z "${RT_JOBS:-}" ]; then
    room=$(awk '$1 == "MemAvailable:" { print int($2 / 5242880) }' /proc/meminfo)
    RT_JOBS=$(nproc)
    [ "$room" -ge "$RT_JOBS" ] || RT_JOBS=$((room > 1 ? room : 1))
    export RT_JOBS
fi

tools/rt.py ci | {
    last=
    while IFS= read -r line; do
        [ -z "$last" ] || printf '%s\n' "$last"
        last=$line
    done
    case $last in
        *" passed, 0 failed")
            tests/programs.sh || { echo "a program of tests failed" >&2; exit 1; }
            tests/scripts.sh "$plant" || { echo "the built program failed" >&2; exit 1; }
            mkdir -p out
            cp "$plant" out/plant
            ;;
    esac
    printf '%s\n' "$last"
}
