#!/usr/bin/env bash
# Reports how long `plant check` and `plant run` take, and the peak memory of the process, for texts of 1 to 4,096 slots. A text has as many
# globals, all retained, and two programs that add to each of them once per execution; `check` makes its plan, `run` starts cold without a
# row, or latches 1,000 rows and saves each. The retain file is in memory, so that it takes little time.
#
# usage: bench/run_slots.sh PLANT [FOLDER]     PLANT is the built program; FOLDER is the folder for the files, /dev/shm by default
set -euo pipefail

plant=$(realpath "$1")
work=$(mktemp -d -p "${2:-/dev/shm}")
trap 'rm -rf "$work"' EXIT
cd "$work"

# unit NAME FIRST LAST: a program that adds to these globals
unit() {
    local k
    echo "PROGRAM $1 VAR_EXTERNAL"
    for ((k = $2; k <= $3; k++)); do echo "g$k : DINT;"; done
    echo END_VAR
    for ((k = $2; k <= $3; k++)); do echo "g$k := g$k + $k;"; done
    echo END_PROGRAM
}

# text SLOTS: a text of SLOTS globals
text() {
    local k
    unit A 1 $(($1 / 2))
    unit B $(($1 / 2 + 1)) "$1"
    echo "CONFIGURATION C VAR_GLOBAL RETAIN"
    for ((k = 1; k <= $1; k++)); do echo "g$k : DINT;"; done
    echo "END_VAR RESOURCE R ON CPU TASK T (INTERVAL := T#10ms, PRIORITY := 0);"
    echo "PROGRAM P WITH T : A; PROGRAM Q WITH T : B; END_RESOURCE END_CONFIGURATION"
}

# best WORDS: the shortest of five times, in milliseconds, the shortest CPU time, and the memory of the program for these words
best() {
    local begin k took least=999999999
    rm -f spent
    for k in 1 2 3 4 5; do
        rm -f store
        begin=$(date +%s%N)
        # shellcheck disable=SC2086 # words without blanks
        /usr/bin/time -a -o spent -f '%U %S %M' "$plant" $1 > printed
        took=$((($(date +%s%N) - begin) / 10000))
        [ $took -ge $least ] || least=$took
    done
    awk -v took=$least '
        NR == 1 || $1 + $2 < spent { spent = $1 + $2 }
        END { printf "%10.2f %10d %7d", took / 100, spent * 1000, $3 }' spent
}

echo t > none.csv
{ echo t; seq 0 10 9990; } > rows.csv
printf '%5s %7s' slots bytes
for job in check start run; do printf ' %10s %10s %7s' "$job ms" 'CPU ms' KiB; done
echo
for slots in 1 512 1024 2048 4096; do
    text $slots > text.st
    printf '%5d %7d %s %s %s\n' $slots "$(wc -c < text.st)" "$(best "check text.st")" \
        "$(best "run text.st --plant none.csv --store store --start cold")" \
        "$(best "run text.st --plant rows.csv --store store --start cold")"
done
