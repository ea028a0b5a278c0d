#!/usr/bin/env bash
# Kills a running `plant` over and over, and checks the values after a warm restart.
#
# Killing a process isn't a power cut: the system still has what the process wrote. The tests of the crates cover power cuts, with a simulated
# disk.
#
# usage: tests/kill.sh PLANT [KILLS]     PLANT is the built program; KILLS is the number of kills within runs, half of them at each pace, and
#                                        also of those within warm starts of another layout, 100 by default
set -euo pipefail

plant=$(realpath "$1")
start_kills=${2:-100}
kills=$(((start_kills + 1) / 2))
# The script gives up after this many seconds.
limit=900

work=$(mktemp -d)
trap 'rm -rf "$work"' EXIT
cd "$work"

# Two resources that add to the same variables, each in its own thread. A step of a recipe, counters and timers are retained too.
cat > counters.st <<'END'
TYPE Phase : (Fill, Heat, Drain); END_TYPE
PROGRAM Count
  VAR RETAIN own : DINT; clock : BOOL; pulses : CTU; since : TON; END_VAR
  VAR_EXTERNAL a : DINT; b : DINT; step : Phase; END_VAR
  a := a + 1;
  b := b + 3;
  own := own + 1;
  CASE step OF
    Fill: step := Heat;
    Heat: step := Drain;
    Drain: step := Fill;
  END_CASE;
  clock := NOT clock;
  pulses(CU := clock, PV := 100);
  since(IN := TRUE, PT := T#1h);
END_PROGRAM
CONFIGURATION Killed
  VAR_GLOBAL RETAIN a : DINT; b : DINT; step : Phase; END_VAR
  RESOURCE R ON CPU
    TASK T (INTERVAL := T#10ms, PRIORITY := 0);
    PROGRAM P WITH T : Count;
  END_RESOURCE
  RESOURCE S ON CPU
    TASK T (INTERVAL := T#10ms, PRIORITY := 0);
    PROGRAM P WITH T : Count;
  END_RESOURCE
END_CONFIGURATION
END
steps=(FILL HEAT DRAIN)
# The same with one more variable, before the retained ones.
sed 's/RETAIN a : DINT;/RETAIN k : INT := 7; a : DINT;/' counters.st > more.st
echo t > none.csv

fail() {
    echo "kill.sh: $1" >&2
    exit 1
}

# rows FIRST COUNT: a plant of COUNT rows, 10 ms apart
rows() {
    echo t
    seq "$1" 10 $(($1 + 10 * ($2 - 1)))
}

# value NAME: the value of a variable or a count in the last report
value() {
    awk -v name="$1" '$1 == name { print $NF }' report
}

# whole: checks that each execution wrote either all of its values or none
whole() {
    local r s
    a=$(value A)
    b=$(value B)
    [ "$b" -eq $((3 * a)) ] || fail "A = $a, but B = $b"
    [ "$(value STEP)" = "${steps[a % 3]}" ] || fail "A = $a, but STEP = $(value STEP)"
    r=$(value R/P.OWN)
    s=$(value S/P.OWN)
    [ $((r + s)) -eq "$a" ] || fail "A = $a, but the programs counted to $r and $s"
    counted_to R "$r"
    counted_to S "$s"
}

# counted_to RESOURCE N: checks that its counter counted every other one of N executions
counted_to() {
    local pulses=$((($2 + 1) / 2))
    [ $pulses -le 32767 ] || pulses=32767
    [ "$(value "$1/P.PULSES.CV")" -eq $pulses ] || fail "$1 ran $2 times, and counted to $(value "$1/P.PULSES.CV")"
}

# check: checks that each execution of the report added to both variables, and that everything is acknowledged
check() {
    whole
    [ "$a" -eq $((known + $(value done))) ] || fail "from $known on $(value done) executions counted to $a"
    [ "$(value acked)" -eq $(($(value rows) + $(value done))) ] || fail "only $(value acked) entries are acknowledged"
    known=$a
}

# look TEXT STORE: restarts warm without a row, and checks the values
look() {
    "$plant" run "$1" --plant none.csv --store "$2" --start warm > report 2> fault || fail "a warm start was refused: $(cat fault)"
    whole
    [ "$a" -ge "$known" ] || fail "A = $a, but an earlier life acknowledged $known"
    known=$a
}

# live PACE MODE: a life over the rows of plant.csv
live() {
    "$plant" run counters.st --plant plant.csv --store store --start "$2" --pace "$1" > report 2> fault
}

started=$SECONDS
life=1
# strike PACE COUNT WHOLE: kills lives of COUNT rows, which take about WHOLE milliseconds. A kill counts if the killed life had saved a row:
# it came during the run, neither before nor after it. WHOLE adapts: it shrinks if a life was over before its kill, and otherwise grows a
# little.
strike() {
    local pace=$1 count=$2 whole=$3 counted=0 before pid ended whole_life
    while [ "$counted" -lt "$kills" ]; do
        [ $((SECONDS - started)) -lt $limit ] || fail "only $counted of $kills kills at pace $pace in $limit seconds"
        rows $((life * 10000000)) "$count" > plant.csv
        before=$known
        # Not through a function: the kill would hit its process instead of the program.
        "$plant" run counters.st --plant plant.csv --store store --start warm --pace "$pace" > report 2> fault &
        pid=$!
        sleep "$(awk -v ms=$((RANDOM * whole / 32768)) 'BEGIN { printf "%.3f", ms / 1000 }')"
        kill -9 $pid 2> killing || true
        ended=0
        wait $pid 2> killing || ended=$?
        [ ! -s fault ] || fail "a life ended with $(cat fault)"
        if [ $ended -ne 0 ] && [ ! -s report ]; then
            look counters.st store
            [ "$known" -eq "$before" ] || counted=$((counted + 1))
            whole=$((whole + whole / 100 + 1))
        elif [ $ended -eq 0 ] || grep -q '^B = [0-9]*$' report; then
            # It had ended, or was killed after its report.
            whole=$((whole * 9 / 10 + 1))
            check
            whole_life=$known
            look counters.st store
            [ "$known" -eq "$whole_life" ] || fail "a whole life reported A = $whole_life, but A = $known"
        else
            # It was killed while it wrote its report, after everything was saved.
            look counters.st store
        fi
        life=$((life + 1))
    done
}

# look_alike STORE: checks that a warm start of each text, over a copy of the file, finds the kept values
look_alike() {
    local text kept=$known
    for text in counters.st more.st; do
        cp "$1" copy
        look $text copy
        [ "$known" -eq "$kept" ] || fail "a killed start of another layout left A = $known of $kept by $text"
    done
    [ "$(value K)" -eq 7 ] || fail "a killed start of another layout left K = $(value K)"
}

# strike_starts: kills warm starts of another layout, each over a copy of the file. A kill counts if the start had written to the file but
# had not reported yet. The delay, in microseconds, adapts: it grows if a kill came too early, and shrinks if one came too late.
strike_starts() {
    local counted=0 middle=50000 after delay pid
    # Nobody writes to this pipe, so a read from it only waits; unlike `sleep`, it starts no process, which would take longer.
    mkfifo silence
    exec 9<> silence
    while [ "$counted" -lt "$start_kills" ]; do
        [ $((SECONDS - started)) -lt $limit ] || fail "only $counted of $start_kills kills in a start in $limit seconds"
        cp store moved
        : > report
        after=$((middle * (96 + RANDOM % 64) / 128))
        printf -v delay '%d.%06d' $((after / 1000000)) $((after % 1000000))
        "$plant" run more.st --plant none.csv --store moved --start warm > report 2> fault &
        pid=$!
        read -r -t "$delay" -u 9 || true
        kill -9 $pid 2> killing || true
        wait $pid 2> killing || true
        starts=$((starts + 1))
        [ ! -s fault ] || [ "$(cat fault)" = "$takes_over" ] || fail "a start of another layout ended with $(cat fault)"
        if [ -s report ]; then
            middle=$((middle - middle / 20))
        elif cmp -s store moved; then
            middle=$((middle + middle / 20 + 1))
        else
            counted=$((counted + 1))
            look_alike moved
        fi
    done
}

# took PACE MODE COUNT: measures the milliseconds that a whole life of COUNT rows takes
took() {
    local begin
    rows $((life * 10000000)) "$3" > plant.csv
    life=$((life + 1))
    begin=$(date +%s%3N)
    live "$1" "$2" || fail "a life ended with $(cat fault)"
    milliseconds=$(($(date +%s%3N) - begin + 1))
    check
}

# At pace settle: as many rows as take about a second and a half on this disk, 100 to 10,000.
known=0
took settle cold 200
[ "$known" -eq 400 ] || fail "a whole life counted $known of 400 executions"
count=$((1500 * 200 / milliseconds))
[ $count -ge 100 ] || count=100
[ $count -le 10000 ] || count=10000
strike settle $count $((milliseconds * count / 200))
settled=$life

# At pace free: 10,000 rows at a time.
took free warm 10000
strike free 10000 "$milliseconds"

# Starts that save the carried values in another layout. Each reports that in one line.
starts=0
takes_over="the retain file has a different layout: $("$plant" show store | grep -c ' = ') carried, 1 new, 0 retyped, 0 dropped"
strike_starts

echo "kill.sh: $kills kills within a run at each pace, in $((settled - 1)) and $((life - settled)) lives; A = $known, B = $((3 * known));" \
    "$start_kills within the save of a start of another layout, in $starts starts"
