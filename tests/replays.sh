#!/usr/bin/env bash
# Runs two resources in threads over and over, and replays each trace in one thread: in whatever order the threads committed, the replay
# reports the counts and the values of the run.
#
# usage: tests/replays.sh PLANT [RUNS]     PLANT is the built program; RUNS is the number of runs at each pace, 50 by default
set -euo pipefail

plant=$(realpath "$1")
runs=${2:-50}
rows=100

work=$(mktemp -d)
trap 'rm -rf "$work"' EXIT
cd "$work"

fail() {
    echo "replays.sh: $1" >&2
    exit 1
}

cat > pair.st <<'END'
PROGRAM Count
  VAR_EXTERNAL n : DINT; END_VAR
  n := n + 1;
END_PROGRAM
CONFIGURATION Pair
  VAR_GLOBAL RETAIN n : DINT; END_VAR
  RESOURCE A ON CPU
    TASK T (INTERVAL := T#10ms, PRIORITY := 0);
    PROGRAM P WITH T : Count;
  END_RESOURCE
  RESOURCE B ON CPU
    TASK T (INTERVAL := T#10ms, PRIORITY := 0);
    PROGRAM P WITH T : Count;
  END_RESOURCE
END_CONFIGURATION
END
{ echo t; seq 0 10 $((10 * (rows - 1))); } > rows.csv

# value FILE NAME: a count or a value of a report
value() {
    awk -v name="$2" '$1 == name { print $NF }' "$1"
}

# again TRACE REPORT: replays a trace
again() {
    "$plant" replay pair.st --plant rows.csv --trace "$1" > "$2" 2> fault
}

# once PACE: a run with a trace, whose replay reports the same
once() {
    local entries
    rm -f store
    "$plant" run pair.st --plant rows.csv --store store --start cold --pace "$1" --trace trace > reported 2> fault || fail "pace $1: $(cat fault)"
    [ "$(value reported rows)" -eq $rows ] || fail "pace $1: $(value reported rows) rows"
    [ $(($(value reported done) + $(value reported overruns))) -eq $((2 * rows)) ] || fail "pace $1: $(cat reported)"
    [ "$(value reported N)" -eq "$(value reported done)" ] || fail "pace $1: $(cat reported)"
    again trace replayed || fail "pace $1: the replay is refused: $(cat fault)"
    diff <(sed '/^acked /d' reported) replayed > difference || fail "pace $1: the replay reports something else: $(cat difference)"
    grep '^done ' trace | sha256sum >> orders

    # A trace without its last execution isn't valid.
    entries=$(value trace end)
    [ "$entries" -eq $((rows + $(value reported done))) ] || fail "pace $1: the trace declares $entries entries"
    tac trace | awk '/^done / && !found { found = 1; next } { print }' | tac > short
    [ "$(wc -l < short)" -eq $(($(wc -l < trace) - 1)) ] || fail "pace $1: no execution was removed from the trace"
    ! again short short_report || fail "pace $1: a trace without its last execution is replayed"
    [ "$(cat fault)" = "fault V1" ] || fail "pace $1: a trace without its last execution is refused with $(cat fault)"
}

for ((i = 1; i <= runs; i++)); do
    once settle
    [ "$(value replayed N)" -eq $((2 * rows)) ] || fail "pace settle: the replay reports N = $(value replayed N)"
done
settled=$(sort -u orders | wc -l)
for ((i = 1; i <= runs; i++)); do once free; done
echo "replays.sh: $runs runs at each pace, with $settled orders of 200 executions at pace settle, each replayed to the same values"
