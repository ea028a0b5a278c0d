#!/usr/bin/env bash
# Runs nine programs as code, by Lua 5.4 and as C with volatile variables by gcc -O2, side by side, and prints the nanoseconds of a unit of
# work, best of three rounds of five series each. ROUNDS sets more rounds, for a machine whose host gives it a varying share. With COUNT=1 it
# prints the CPU instructions of a unit by callgrind, which no load changes: those of twice the runs minus those of the runs. All three have to
# compute the same result. Give the root of the repository, and then optionally an already built program. It needs lua5.4 and gcc, and valgrind
# for instructions.
set -e
. "$(dirname "$0")/copied.sh"
# the crates below a text's plan and a core
crates=$(below "$1" 'config serial_core')
built=${2:+$(realpath "$2")}
# shellcheck disable=SC2086 # names without blanks
copied "$1" speed 'anyhow thiserror' $crates
if [ -z "$built" ]; then
    rt run -- "$here/speed/count.st" 1 200000 1
    built=$PWD/out/speed
fi

# each program with the runs of a series, and the units of work of a run
programs='count 10 200000
pid 10 20000
sort 10 99500
crc 10 81920
timers 200 1000
scale 30 6400
recipe 30 7680
motor 200 960
mixer 10 20000'

# sides NAME RUNS UNITS: a line for each side, with the program, the side, the result and the nanoseconds of a unit
sides() {
    for _ in $(seq "${ROUNDS:-3}"); do
        echo "$1 code $("$built" "$here/speed/$1.st" "$2" "$3" 5)"
        echo "$1 lua $(cd "$here/speed" && lua5.4 measure.lua "$1" "$2" "$3" 5)"
        echo "$1 c $("$copy/$1" "$2" "$3" 5)"
    done
}

# instructions COMMAND..: the number of CPU instructions that the command takes
instructions() {
    valgrind --tool=callgrind --callgrind-out-file=/dev/null "$@" 2>&1 | grep -oP 'Collected : \K\d+'
}

# counted NAME UNITS RUNS COMMAND..: the instructions of a unit, from this many runs and from twice as many
counted() {
    local name=$1 units=$2 runs=$3 once twice
    shift 3
    once=$(instructions "$@" "$runs" "$units" 1)
    twice=$(instructions "$@" $((2 * runs)) "$units" 1)
    awk -v name="$name" -v all=$((twice - once)) -v units=$((runs * units)) 'BEGIN { printf " %10.1f", all / units }'
}

# counts NAME RUNS UNITS: the line of a program, from a tenth of the runs
counts() {
    local runs=$((($2 + 9) / 10))
    printf '%-8s' "$1"
    counted "$1" "$3" $runs "$built" "$here/speed/$1.st"
    (cd "$here/speed" && counted "$1" "$3" $runs lua5.4 measure.lua "$1")
    counted "$1" "$3" $runs "$copy/$1"
    echo
}

while read -r name _; do
    gcc -O2 -Wall -o "$copy/$name" "$here/speed/$name.c"
done <<< "$programs"

if [ "${COUNT:-0}" -eq 1 ]; then
    printf '%-8s %10s %10s %10s\n' '' code Lua C
    while read -r name runs units; do
        counts "$name" "$runs" "$units"
    done <<< "$programs"
    exit
fi

while read -r name runs units; do
    sides "$name" "$runs" "$units"
done <<< "$programs" | awk '
    !($1 in result) { names[++count] = $1; result[$1] = $3 }
    result[$1] != $3 { print "the results differ: " $0; differ = 1 }
    !(($1, $2) in best) || $4 < best[$1, $2] { best[$1, $2] = $4 }
    END {
        printf "%-8s %10s %10s %10s %10s %10s\n", "", "code", "Lua", "C", "Lua/code", "code/C"
        for (i = 1; i <= count; i++) {
            n = names[i]
            printf "%-8s %10.1f %10.1f %10.1f %10.2f %10.1f\n", n, best[n, "code"], best[n, "lua"], best[n, "c"],
                best[n, "lua"] / best[n, "code"], best[n, "code"] / best[n, "c"]
        }
        exit differ
    }'
