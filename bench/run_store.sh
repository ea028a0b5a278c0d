#!/usr/bin/env bash
# Compares `plant run` over a real retain file, 10,000 rows, with as many SQLite transactions that change one row, with synchronous=FULL, on
# the same disk.
#
# usage: bench/run_store.sh PLANT [FOLDER]     PLANT is the built program; FOLDER is on the disk to be measured
set -euo pipefail

plant=$(realpath "$1")
bench=$(realpath "$(dirname "$0")")
text=$(realpath "$(dirname "$0")/../tests/texts/counter.st")
work=$(mktemp -d -p "${2:-/tmp}")
trap 'rm -rf "$work"' EXIT
cd "$work"

sed 's/: INT;/: DINT;/' "$text" > n.st
{ echo t; seq 0 10 99990; } > rows.csv
echo t > none.csv

milliseconds() {
    local begin
    begin=$(date +%s%N)
    "$@" > printed
    echo $((($(date +%s%N) - begin) / 1000000))
}

echo "start-up, 100 times 'plant check': $(milliseconds bash -c "for i in {1..100}; do '$plant' check n.st; done") ms"
/usr/bin/time -f 'plant run, 10,000 rows: %e s, %M KiB' "$plant" run n.st --plant rows.csv --store store --start cold > printed
/usr/bin/time -f 'plant run, pace free: %e s, %M KiB' "$plant" run n.st --plant rows.csv --store store --start cold --pace free > printed
for mode in DELETE WAL; do
    /usr/bin/time -f "SQLite, 10,000 transactions, journal_mode=$mode: %e s, %M KiB" "$bench/sqlite.py" $mode 10000 > printed
done
