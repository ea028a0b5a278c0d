#!/usr/bin/env bash
# Reports how long `plant run` takes with and without a trace of 65,536 entries, the longest possible one, and how long its `plant replay` takes.
# Seven programs count on two resources, over 8,192 rows. The retain file is in memory, so that it takes little time.
#
# usage: bench/run_traces.sh PLANT [FOLDER]     PLANT is the built program; FOLDER is the folder for the files, /dev/shm by default
set -euo pipefail

plant=$(realpath "$1")
work=$(mktemp -d -p "${2:-/dev/shm}")
trap 'rm -rf "$work"' EXIT
cd "$work"

{
    echo "PROGRAM Count VAR_EXTERNAL n : DINT; END_VAR n := n + 1; END_PROGRAM"
    echo "CONFIGURATION C VAR_GLOBAL RETAIN n : DINT; END_VAR"
    for resource in 1,2,3,4 5,6,7; do
        echo "RESOURCE R${resource%%,*} ON CPU"
        for k in ${resource//,/ }; do echo "TASK T$k (INTERVAL := T#1ms, PRIORITY := 0);"; done
        for k in ${resource//,/ }; do echo "PROGRAM P$k WITH T$k : Count;"; done
        echo END_RESOURCE
    done
    echo END_CONFIGURATION
} > text.st
{ echo t; seq 0 8191; } > rows.csv

# timed NAME WORD..: prints how long the program takes for these words
timed() {
    local begin name=$1
    shift
    begin=$(date +%s%N)
    "$plant" "$@" > "$name"
    echo "$name: $((($(date +%s%N) - begin) / 1000000)) ms"
}

for _ in 1 2 3; do
    rm -f store
    timed run run text.st --plant rows.csv --store store --start cold
    rm -f store
    timed traced run text.st --plant rows.csv --store store --start cold --trace trace
    timed replay replay text.st --plant rows.csv --trace trace
    diff <(sed '/^acked /d' traced) replay
done
tail -n 1 trace
wc -c < trace | sed 's/$/ bytes/'
echo "for comparison: $(cp trace copy; for _ in 1 2 3; do begin=$(date +%s%N); cat trace > copy; echo -n "$((($(date +%s%N) - begin) / 1000000)) "; done)ms to copy the same bytes"
