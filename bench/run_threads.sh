#!/usr/bin/env bash
# Reports the commits per second of `plant run` over a real retain file with 1, 2, 4 and 8 resources, each with one or eight programs that count
# in their own variables, at both paces. For comparison it reports SQLite's transactions that change one row, with synchronous=FULL, on the
# same disk in the same run, by one writer and by as many writers as there are resources, each with its own row. A save is three writes and
# three syncs, except the first two of a file. At pace `free` a run takes only about 20 ms, so it runs 20 times. Last it reports how long one
# execution takes with 4,095 variables that it does not name, since a snapshot copies them.
#
# usage: bench/run_threads.sh PLANT [FOLDER]     PLANT is the built program; FOLDER is on the disk to be measured
set -euo pipefail

plant=$(realpath "$1")
bench=$(realpath "$(dirname "$0")")
work=$(mktemp -d -p "${2:-/tmp}")
trap 'rm -rf "$work"' EXIT
cd "$work"

# text RESOURCES PROGRAMS OTHERS: a configuration of RESOURCES resources, PROGRAMS programs on each, and OTHERS variables that none names
text() {
    local j k
    for ((k = 0; k < $1 * $2; k++)); do echo "PROGRAM Unit$k VAR_EXTERNAL n$k : DINT; END_VAR n$k := n$k + 1; END_PROGRAM"; done
    echo "CONFIGURATION C VAR_GLOBAL RETAIN"
    for ((k = 0; k < $1 * $2; k++)); do echo "n$k : DINT;"; done
    echo "END_VAR VAR_GLOBAL"
    for ((k = 0; k < $3; k++)); do echo "other$k : DINT;"; done
    echo "END_VAR"
    for ((k = 0; k < $1; k++)); do
        echo "RESOURCE R$k ON CPU"
        for ((j = 0; j < $2; j++)); do echo "TASK T$j (INTERVAL := T#10ms, PRIORITY := 0);"; done
        for ((j = 0; j < $2; j++)); do echo "PROGRAM P$j WITH T$j : Unit$((k * $2 + j));"; done
        echo "END_RESOURCE"
    done
    echo "END_CONFIGURATION"
}

# saves: the generation of the file's last record
saves() {
    python3 -c "
import sys
file = open('store', 'rb').read()
print(max(int.from_bytes(file[at + 1 : at + 9], 'big') for at in (0, 131072) if file[at] == 0xA5))"
}

# count_of NAME: a count of the last report
count_of() {
    awk -v name="$1" '$1 == name { print $NF }' report
}

milliseconds() {
    local begin
    begin=$(date +%s%N)
    "$@" > report
    took=$((($(date +%s%N) - begin) / 1000000 + 1))
}

# measure NAME PACE RUNS: prints the sums of RUNS runs of text.st
measure() {
    local commits=0 all=0 count=0 run
    for ((run = 0; run < $3; run++)); do
        rm -f store
        milliseconds "$plant" run text.st --plant rows.csv --store store --start cold --pace "$2"
        commits=$((commits + $(count_of "done"))) all=$((all + took)) count=$((count + $(saves)))
    done
    printf '%-38s %9s %9s %12s %8s %13s %13s\n' "$1" $commits $all $((commits * 1000 / all)) $count \
        "$(awk -v d=$commits -v s=$count 'BEGIN { printf "%.2f", d / s }')" "$(awk -v d=$commits -v s=$count 'BEGIN { printf "%.2f", 6 * s / d }')"
}

printf '%-38s %9s %9s %12s %8s %13s %13s\n' run commits ms commits/s saves commits/save steps/commit
for programs in 1 8; do
    for pace in settle free; do
        rows=$([ $pace = settle ] && echo $((2000 / programs)) || echo 10000)
        { echo t; seq 0 10 $(((rows - 1) * 10)); } > rows.csv
        for resources in 1 2 4 8; do
            text $resources $programs 0 > text.st
            measure "$resources resources of $programs, $pace" $pace "$([ $pace = settle ] && echo 1 || echo 20)"
        done
    done
done

for mode in DELETE WAL; do
    milliseconds "$bench/sqlite.py" $mode 4000
    printf '%-38s %9s %9s %12s\n' "SQLite, $mode" 4000 $took $((4000 * 1000 / took))
    for writers in 1 2 4 8; do
        printf '%-38s %9s %9s %12s\n' "SQLite, $mode, $writers writers" $((writers * 500)) - "$("$bench/sqlite_writers.py" $mode $writers 500)"
    done
done

{ echo t; seq 0 10 19990; } > rows.csv
for others in 0 4095; do
    text 1 1 $others > text.st
    measure "1 resource of 1, $others others, settle" settle 1
done
