#!/usr/bin/env bash
# Prints all comparisons in one run on one machine, as Markdown tables: programs as slot code, by Lua and in C; commits per second compared with
# SQLite; starts and checks by size of text.
#
# usage: bench/side_by_side.sh PLANT [FOLDER]     PLANT is the built program; FOLDER is on the disk to be measured
set -euo pipefail

root=$(realpath "$(dirname "$0")/..")
plant=$(realpath "$1")
disk=$(realpath "${2:-/tmp}")
work=$(mktemp -d -p "$disk")
trap 'rm -rf "$work"' EXIT
cd "$work"

# best WORDS: the least milliseconds of five runs
best() {
    local least=999999999 begin took
    for _ in 1 2 3 4 5; do
        begin=$(date +%s%N)
        "$@" > printed 2>&1 || true
        took=$((($(date +%s%N) - begin) / 10000))
        [ "$took" -ge "$least" ] || least=$took
    done
    printf '%d.%02d' $((least / 100)) $((least % 100))
}

# transactions MODE ROWS: ROWS transactions of SQLite over a new database
transactions() {
    rm -f ./*.db ./*.db-*
    "$root/bench/sqlite.py" "$1" "$2"
}

# counters COUNT: a text of one program with COUNT statements
counters() {
    echo 'PROGRAM Add VAR_EXTERNAL n : DINT; END_VAR'
    for ((k = 0; k < $1; k++)); do echo 'n := n + 1;'; done
    echo 'END_PROGRAM CONFIGURATION C VAR_GLOBAL RETAIN n : DINT; END_VAR RESOURCE R ON CPU'
    echo 'TASK T (INTERVAL := T#10ms, PRIORITY := 0); PROGRAM P WITH T : Add; END_RESOURCE END_CONFIGURATION'
}

echo "$(date -u +%F), $(nproc) cores, load $(cut -d' ' -f1 /proc/loadavg)"
echo
echo "Nanoseconds of a unit of work:"
echo
"$root/bench/run_speed.sh" "$root"
echo
echo "| Commits, each saved before the next | A second |"
echo "|---|---|"
rows=2000
counters 1 > one.st
{ echo t; seq 0 10 $((rows * 10 - 10)); } > rows.csv
took=$(best "$plant" run one.st --plant rows.csv --store store --start cold)
echo "| \`plant run\`, $rows rows | $(awk "BEGIN { printf \"%.0f\", $rows / $took * 1000 }") |"
for mode in DELETE WAL; do
    took=$(best transactions $mode $rows)
    echo "| SQLite, \`journal_mode=$mode\`, \`synchronous=FULL\` | $(awk "BEGIN { printf \"%.0f\", $rows / $took * 1000 }") |"
done
echo
echo "| Statements | Bytes | \`plant check\`, ms | A cold start without rows, ms |"
echo "|---|---|---|---|"
echo t > none.csv
for count in 1 100 1000 3000; do
    counters $count > many.st
    echo "| $count | $(stat -c %s many.st) | $(best "$plant" check many.st) | $(best "$plant" run many.st --plant none.csv --store new --start cold) |"
done
