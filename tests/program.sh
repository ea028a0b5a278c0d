#!/usr/bin/env bash
# Runs the built program over real files, scene by scene, and compares its exit status, its outputs and the retain file.
#
# usage: tests/program.sh PLANT     PLANT is the built program
set -euo pipefail

plant=$(realpath "$1")
texts=$(realpath "$(dirname "$0")/texts")
work=$(mktemp -d)
trap 'rm -rf "$work"' EXIT
cd "$work"

scenes=0
fail() {
    echo "program.sh: $1" >&2
    exit 1
}

# scene NAME STATUS OUTPUT ERROR WORD..: the program gives this answer to these words
scene() {
    local name=$1 status=$2 output=$3 error=$4 found=0
    shift 4
    "$plant" "$@" > out 2> err || found=$?
    [ "$found" -eq "$status" ] || fail "$name: status $found: $(cat err)"
    [ "$(cat out)" = "$output" ] || fail "$name: printed $(cat out)"
    [ "$(cat err)" = "$error" ] || fail "$name: printed $(cat err)"
    scenes=$((scenes + 1))
}

# refused NAME STATUS WORD..: the program ends with this status, some text on the standard error and none on the standard output
refused() {
    local name=$1 status=$2 found=0
    shift 2
    "$plant" "$@" > out 2> err || found=$?
    [ "$found" -eq "$status" ] || fail "$name: status $found"
    [ ! -s out ] || fail "$name: printed $(cat out)"
    [ -s err ] || fail "$name: printed nothing"
    scenes=$((scenes + 1))
}

# several COUNT LINE: the line COUNT times, each with its number in place of @
several() {
    local i
    for ((i = 1; i <= $1; i++)); do echo "${2//@/$i}"; done
}

# bytes HEX FILE: makes a file of these bytes
bytes() {
    printf '%b' "$(sed 's/../\\x&/g' <<< "$1")" > "$2"
}

# holds NAME FILE HEX [HEX]: the file begins with the first bytes, its second area with the second ones; the rest up to 262,144 is zero bytes
holds() {
    bytes "$3" wanted
    truncate -s 131072 wanted
    bytes "${4:-}" second
    cat second >> wanted
    truncate -s 262144 wanted
    cmp -s "$2" wanted || fail "$1: the retain file differs"
    scenes=$((scenes + 1))
}

cp "$texts/counter.st" s.st
sed 's/: INT;/: DINT;/' s.st > dint.st
cp "$texts/two_counters.st" both.st
printf 't\n' > none.csv
printf 't\n0\n10\n20\n' > rows.csv
printf 't\n20\n' > last.csv
printf 't\n30\n' > next.csv

run() {
    echo run "$1" --plant "$2" --store "$3" --start "$4"
}
report() {
    printf 'rows %s\ndone %s\nfaults %s\noverruns %s\nacked %s\n' "$1" "$2" "$3" "$4" "$5"
    shift 5
    printf '%s\n' "$@"
}

# Rows are counted, and retained values are still there after a restart.
scene "three rows" 0 "$(report 3 3 0 0 6 'N = 3')" "" $(run s.st rows.csv s cold)
scene "sizes" 0 "$(printf '%s 1\n' resources tasks programs slots retained)" "" check s.st
scene "two globals" 0 "$(report 3 3 0 0 6 'N = 3' 'K = 10')" "" $(run both.st rows.csv both cold)
scene "sizes of two globals" 0 "$(printf '%s\n' 'resources 1' 'tasks 1' 'programs 1' 'slots 2' 'retained 1')" "" check both.st
scene "a warm restart" 0 "$(report 0 0 0 0 0 'N = 3' 'K = 7')" "" $(run both.st none.csv both warm)
scene "a row at the record's moment" 5 "" "fault K4" $(run both.st last.csv both warm)
scene "a later row" 0 "$(report 1 1 0 0 2 'N = 4' 'K = 8')" "" $(run both.st next.csv both warm)
cp s life
scene "a cold restart" 0 "$(report 0 0 0 0 0 'N = 0')" "" $(run s.st none.csv s cold)
scene "the built-in configuration" 0 "N = 200" "" first

# The bytes of the retain file.
scene "no retain file" 0 "$(report 0 0 0 0 0 'N = 0')" "" $(run s.st none.csv new cold)
holds "no retain file" new A50000000000000001000000140000000000000000000000064E20494E540A0000
bytes A50000000000000002000000140000000000000015000000064E20494E540A0003 kept
truncate -s 262144 kept
scene "a record" 0 "$(report 0 0 0 0 0 'N = 3')" "" $(run s.st none.csv kept warm)
holds "a record" kept A50000000000000002000000140000000000000015000000064E20494E540A0003
: > empty
scene "an empty file" 0 "$(report 0 0 0 0 0 'N = 0')" "" $(run s.st none.csv empty warm)
[ "$(stat -c %s empty)" -eq 262144 ] || fail "an empty file is not formatted"
truncate -s 262143 short
scene "a file one byte short" 0 "$(report 0 0 0 0 0 'N = 0')" "" $(run s.st none.csv short warm)
[ "$(stat -c %s short)" -eq 262144 ] || fail "a short file is not formatted"
truncate -s 262145 long
scene "a file one byte too long" 4 "" "fault S1" $(run s.st none.csv long warm)
[ "$(stat -c %s long)" -eq 262145 ] || fail "a long file was changed"
bytes A5 gate
truncate -s 262144 gate
cp gate before
scene "an open gate over nothing" 4 "" "fault S2" $(run s.st none.csv gate warm)
scene "a cold start over it" 4 "" "fault S2" $(run s.st none.csv gate cold)
cmp -s gate before || fail "a damaged file was changed"
scene "a folder that isn't there" 4 "" "fault S3" $(run s.st none.csv folder/store cold)

# over_another CARRIED NEW RETYPED DROPPED: the report of a warm start over a record of another layout, on the standard error
over_another() {
    echo "the retain file has a different layout: $1 carried, $2 new, $3 retyped, $4 dropped"
}

# A warm start of another layout over the file of the three rows: a variable keeps its value if the record has its path and type, any other
# one is initial again, and dropped values don't come back.
cp life other
scene "another type" 0 "$(report 0 0 0 0 0 'N = 0')" "$(over_another 0 0 1 0)" $(run dint.st none.csv other warm)
scene "a row at the record's moment by another type" 5 "" "fault K4" $(run dint.st last.csv other warm)
scene "the first type after another one" 0 "$(report 0 0 0 0 0 'N = 0')" "$(over_another 0 0 1 0)" $(run s.st none.csv other warm)
sed 's/RETAIN n : INT;/RETAIN k : INT := 7; n : INT;/' s.st > before.st
cp life other
scene "a variable more, before the one that is kept" 0 "$(report 0 0 0 0 0 'K = 7' 'N = 3')" "$(over_another 1 1 0 0)" $(run before.st none.csv other warm)
scene "that variable dropped again" 0 "$(report 0 0 0 0 0 'N = 3')" "$(over_another 1 0 0 1)" $(run s.st none.csv other warm)
scene "a row at the record's moment after two other layouts" 5 "" "fault K4" $(run s.st last.csv other warm)
cp life other
scene "a row over another layout, with a trace" 0 "$(report 1 1 0 0 2 'K = 7' 'N = 4')" "$(over_another 1 1 0 0)" $(run before.st next.csv other warm) --trace moved.txt
scene "its trace run again" 0 "$(printf '%s\n' 'rows 1' 'done 1' 'faults 0' 'overruns 0' 'K = 7' 'N = 4')" "" \
    replay before.st --plant next.csv --trace moved.txt
scene "its trace by the text before" 3 "" "fault V1" replay s.st --plant next.csv --trace moved.txt
sed 's/RETAIN n/n/' s.st > fleeting.st
cp life other
scene "a variable that is no longer retained" 0 "$(report 0 0 0 0 0 'N = 0')" "$(over_another 0 0 0 1)" $(run fleeting.st none.csv other warm)
scene "that variable retained again" 0 "$(report 0 0 0 0 0 'N = 0')" "$(over_another 0 1 0 0)" $(run s.st none.csv other warm)
cat > mode.st <<'END'
TYPE Mode : (Stopped, Running, Fault); END_TYPE
PROGRAM Step VAR_EXTERNAL m : Mode; END_VAR CASE m OF Stopped : m := Running; Running : m := Mode#Fault; END_CASE; END_PROGRAM
CONFIGURATION C
VAR_GLOBAL RETAIN m : Mode; END_VAR
RESOURCE R ON CPU TASK T (INTERVAL := T#10ms, PRIORITY := 0); PROGRAM P WITH T : Step; END_RESOURCE
END_CONFIGURATION
END
sed 's/Fault);/Fault, Open);/' mode.st > names.st
scene "three rows of an enumerated type" 0 "$(report 3 3 0 0 6 'M = FAULT')" "" $(run mode.st rows.csv mode cold)
scene "its restart" 0 "$(report 0 0 0 0 0 'M = FAULT')" "" $(run mode.st none.csv mode warm)
scene "a fourth name of its type" 0 "$(report 0 0 0 0 0 'M = STOPPED')" "$(over_another 0 0 1 0)" $(run names.st none.csv mode warm)
scene "the three names again" 0 "$(report 0 0 0 0 0 'M = STOPPED')" "$(over_another 0 0 1 0)" $(run mode.st none.csv mode warm)

# Such a start saves its values in the new layout, with the record's moment and the next generation. A start of the same layout saves nothing.
three=000000140000000000000015000000064E20494E540A0003
bytes A50000000000000002$three other
truncate -s 262144 other
scene "a record of another layout" 0 "$(report 0 0 0 0 0 'N = 0')" "$(over_another 0 0 0 1)" $(run fleeting.st none.csv other warm)
holds "a record without a variable" other A50000000000000002$three A500000000000000030000000C000000000000001500000000
scene "a record without a variable" 0 "$(report 0 0 0 0 0 'N = 0')" "$(over_another 0 1 0 0)" $(run s.st none.csv other warm)
holds "a record of the first layout again" other A50000000000000004000000140000000000000015000000064E20494E540A0000 \
    A500000000000000030000000C000000000000001500000000
cp life other
scene "the same layout" 0 "$(report 0 0 0 0 0 'N = 3')" "" $(run s.st none.csv other warm)
cmp -s life other || fail "a warm start of the same layout saved"
bytes A5FFFFFFFFFFFFFFFF$three last
truncate -s 262144 last
scene "another layout over the last generation" 4 "" "fault S4" $(run dint.st none.csv last warm)
holds "another layout over the last generation" last A5FFFFFFFFFFFFFFFF$three
scene "the last generation by its own layout" 0 "$(report 0 0 0 0 0 'N = 3')" "" $(run s.st none.csv last warm)
holds "the last generation by its own layout" last A5FFFFFFFFFFFFFFFF$three

# Refused sources: not even their retain file is made.
printf 'a__b' > word.st
printf 'PROGRAM Add VAR n : INT; END_VAR n := TRUE; END_PROGRAM' > type.st
printf 'PROGRAM Add VAR n : INT; END_VAR n := ; END_PROGRAM' > grammar.st
printf 'PROGRAM Add VAR_EXTERNAL n : INT; END_VAR n := n + 1; END_PROGRAM' > alone.st
scene "a malformed name" 2 "" "fault L3 at 0" check word.st
scene "a wrong type" 2 "" "fault C3 at 38" check type.st
scene "an unexpected token" 2 "" "fault P1 at 38" check grammar.st
scene "no configuration" 2 "" "fault G2" check alone.st
printf 'TYPE Pair : ARRAY [0..1] OF INT; END_TYPE' > types.st
scene "types and no configuration" 2 "" "fault G2" check types.st
scene "no source" 2 "" "fault X1" check none.st
scene "no ticks" 2 "" "fault G7" $(run word.st rows.csv made cold) --budget 0
scene "one tick too many" 2 "" "fault G7" $(run s.st rows.csv made cold) --budget 1000001
scene "words that aren't UTF-8" 1 "" "error: the arguments aren't UTF-8" check $'\xff.st'
scene "a later word that isn't UTF-8" 1 "" "error: the arguments aren't UTF-8" run s.st --plant $'\xc3'
# a run without --budget has 10,000 ticks, according to its trace
"$plant" $(run s.st rows.csv untold cold) --trace untold.txt > out 2> err || fail "no budget: status $?"
[ "$(sed -n 2p untold.txt)" = "budget 10000" ] || fail "no budget: $(sed -n 2p untold.txt)"
scenes=$((scenes + 1))
scene "a refused source" 2 "" "fault L3 at 0" $(run word.st rows.csv made cold)
scene "no plant" 3 "" "fault I5" $(run s.st nowhere.csv made cold)
scene "a folder for a plant" 3 "" "fault I5" $(run s.st . made cold)
printf 't\n5\n5\n' > twice.csv
printf 't,S\n0,1\n' > input.csv
scene "an equal moment" 3 "" "fault I3" $(run s.st twice.csv made cold)
scene "a column for no input" 3 "" "fault I1" $(run s.st input.csv made cold)

# Refused words: those of a job with an invalid value, and those of no job.
wrong() {
    refused "the words $*" 1 "$@"
    [ "$(head -c 7 err)" = "error: " ] || fail "the words $*: printed $(cat err)"
}
for words in hot "cold --budget x" "cold --budget=" "cold --budget +5" "cold --budget -5" "cold --budget 4294967296" "cold --pace fast" \
    "cold --trace" "cold t.st"; do
    wrong run s.st --plant rows.csv --store made --start $words
done
wrong run s.st --plant rows.csv --store made --start cold --budget " 5"
wrong replay s.st --plant rows.csv --trace
jobless() {
    refused "the words $*" 1 "$@"
    grep -q 'Usage: plant' err || fail "the words $*: printed $(cat err)"
    ! grep -q 'invalid value' err || fail "the words $*: printed $(cat err)"
}
jobless
for words in fly "first s.st" check "check s.st t.st" "run s.st" "run s.st --plant p --store made" replay "replay s.st" "replay s.st --plant p" \
    "replay --plant p --trace t" "replay s.st --plant p --trace t u" \
    "replay s.st --plant p --trace t --store made"; do
    jobless $words
done
[ ! -e made ] || fail "a refused run made a retain file"

# Help isn't a refusal.
helped() {
    "$plant" "$@" > out 2> err || fail "the words $*: refused"
    grep -q 'Usage: plant' out || fail "the words $*: printed $(cat out)"
    [ ! -s err ] || fail "the words $*: printed $(cat err)"
    scenes=$((scenes + 1))
}
for words in --help -h help "run --help" "help replay"; do helped $words; done

# Words in any order, with every option.
scene "words in another order" 0 "$(report 3 3 0 0 6 'N = 3')" "" run --start cold --store ordered --plant rows.csv --pace settle s.st

# Pace free: at each row a due program runs or has an overrun, and in the end everything is acknowledged.
cat > pair.st <<'END'
PROGRAM Add VAR_EXTERNAL n : DINT; END_VAR n := n + 1; END_PROGRAM
CONFIGURATION Pair
VAR_GLOBAL RETAIN n : DINT; END_VAR
RESOURCE A ON CPU TASK T (INTERVAL := T#10ms, PRIORITY := 0); PROGRAM P WITH T : Add; END_RESOURCE
RESOURCE B ON CPU TASK T (INTERVAL := T#10ms, PRIORITY := 0); PROGRAM P WITH T : Add; END_RESOURCE
END_CONFIGURATION
END
{ echo t; seq 0 10 19990; } > many.csv
number() { awk -v name="$1" '$1 == name { print $NF }' out; }
free() {
    local rows=$1 programs=$2
    shift 2
    "$plant" "$@" --pace free > out 2> err || fail "pace free: $(cat err)"
    [ "$(number rows)" -eq "$rows" ] || fail "pace free: $(number rows) rows"
    [ $(($(number done) + $(number overruns))) -eq $((rows * programs)) ] || fail "pace free: $(cat out)"
    [ "$(number acked)" -eq $((rows + $(number done))) ] || fail "pace free: $(cat out)"
    [ "$(number N)" -eq "$(number done)" ] || fail "pace free: $(cat out)"
    scenes=$((scenes + 1))
}
free 3 1 $(run s.st rows.csv ordered cold)
free 2000 2 $(run pair.st many.csv pair cold)
scene "two resources" 0 "$(report 2000 4000 0 0 6000 'N = 4000')" "" $(run pair.st many.csv pair cold)
scene "a warm restart of two resources" 0 "$(report 0 0 0 0 0 'N = 4000')" "" $(run pair.st none.csv pair warm)

# Fifty runs of the built-in configuration, since its threads interleave in different ways.
for _ in {1..50}; do scene "the built-in configuration" 0 "N = 200" "" first; done

# Threads that can't be started: there is room for no thread's stack; then for that of the flusher; then also for that of the first resource.
narrow() { (ulimit -S -s 400000 && ulimit -S -v "$1" && exec "$plant" first); }
for memory in 300000 600000 1000000; do
    found=0
    narrow $memory > out 2> err || found=$?
    [ "$found" -eq 5 ] || fail "a thread that can't be started: status $found: $(cat err)"
    [ ! -s out ] || fail "a thread that can't be started: printed $(cat out)"
    [ "$(cat err)" = "fault H1" ] || fail "a thread that can't be started: printed $(cat err)"
    scenes=$((scenes + 1))
done
scene "a row at the record's moment, one after another" 5 "" "fault K4" $(run s.st last.csv ordered warm) --pace free

# A full standard output.
full() {
    local found=0
    "$plant" "$2" > /dev/full 2> err || found=$?
    [ "$found" -eq "$1" ] || fail "a full output of $2: status $found"
    scenes=$((scenes + 1))
}
full 5 first
full 5 --help
full 1 fly

# The order of work: a trace and its budget, then the source, then the plant, then the retain file.
printf 'PROGRAM p END_PROGRAM' > good.st
printf 'a(*b' > open.st
printf 'trace 1\nbudget 10000\n' > t.txt
first_fault() {
    scene "check of $1" 2 "" "$2" check "$1"
    scene "run of $1" 2 "" "$2" $(run "$1" nowhere.csv made cold)
    scene "replay of $1" 2 "" "$2" replay "$1" --plant nowhere.csv --trace t.txt
}
first_fault none.st "fault X1"
first_fault . "fault X1"
first_fault word.st "fault L3 at 0"
first_fault open.st "fault L4 at 1"
first_fault good.st "fault G2"
scene "no trace" 3 "" "fault V6" replay none.st --plant none.csv --trace none.txt
scene "a folder for a trace" 3 "" "fault V6" replay none.st --plant none.csv --trace .
scene "no plant for a trace" 3 "" "fault I5" replay s.st --plant nowhere.csv --trace t.txt
scene "a wrong plant for a trace" 3 "" "fault I3" replay s.st --plant twice.csv --trace t.txt
scene "a trace without its lines, once all else is there" 3 "" "fault V1" replay s.st --plant rows.csv --trace t.txt
# headless NAME FORMAT: a trace that begins so has no budget, which is reported before a missing source
headless() {
    # shellcheck disable=SC2059 # the text is the format
    printf "$2" > headless.txt
    scene "a trace with $1" 3 "" "fault V1" replay none.st --plant none.csv --trace headless.txt
}
headless "no bytes" ''
headless "one line" 'trace 1\n'
headless "another number" 'trace 3\nbudget 1\n'
headless "another word" 'Trace 1\nbudget 1\n'
headless "no budget" 'trace 1\nstart cold\n'
headless "a budget that does not end" 'trace 1\nbudget 1'
headless "a budget of no ticks" 'trace 1\nbudget 0\n'
headless "a budget past its limit" 'trace 1\nbudget 1000001\n'
headless "a budget past 64 bits" 'trace 1\nbudget 18446744073709551617\n'
headless "a budget without digits" 'trace 1\nbudget \n'
headless "a budget with a zero before it" 'trace 1\nbudget 01\n'
headless "a budget with a sign" 'trace 1\nbudget +1\n'
headless "two spaces" 'trace 1\nbudget  1\n'
headless "a CR" 'trace 1\r\nbudget 1\r\n'
for ticks in 1 1000000; do
    printf 'trace 1\nbudget %s\n' "$ticks" > ticks.txt
    scene "a trace of $ticks ticks" 2 "" "fault X1" replay none.st --plant none.csv --trace ticks.txt
done

# A retain file can't be another file of the run, by whatever name; such a run opens nothing.
cp s.st own.st
cp rows.csv own.csv
ln -s own.st link.st
ln own.csv hard.csv
refused "the source as a retain file" 1 $(run own.st own.csv own.st cold)
refused "the plant as a retain file" 1 $(run own.st own.csv own.csv warm)
refused "the trace as a retain file" 1 $(run own.st own.csv own.txt cold) --trace own.txt
[ ! -e own.txt ] || fail "a refused run made a trace"
for name in ./own.st link.st hard.csv "$work/own.csv"; do
    scene "$name as a retain file" 1 "" "error: the retain file is the source, the plant, the trace or a standard stream" \
        $(run own.st own.csv "$name" cold)
done
cmp -s s.st own.st && cmp -s rows.csv own.csv || fail "a refused run changed its source or its plant"

# A trace of three rows, byte for byte. Its replay gives the report of its run, without the line of acknowledged entries.
replay() {
    echo replay "$1" --plant "$2" --trace "$3"
}
replayed() {
    printf 'rows %s\ndone %s\nfaults %s\noverruns %s\n' "$1" "$2" "$3" "$4"
    shift 4
    printf '%s\n' "$@"
}
# has_text NAME FILE: the file has the bytes of the standard input
has_text() {
    cmp -s "$2" - || fail "$1: the trace is $(cat "$2")"
    scenes=$((scenes + 1))
}
scene "a run with a trace" 0 "$(report 3 3 0 0 6 'N = 3')" "" $(run s.st rows.csv traced cold) --trace trace.txt
has_text "a run with a trace" trace.txt <<'END'
trace 1
budget 10000
start cold
moment none
keep N 0
row 0
done R/P 0 ok
row 10
done R/P 1 ok
row 20
done R/P 2 ok
end 6
END
scene "its replay" 0 "$(replayed 3 3 0 0 'N = 3')" "" $(replay s.st rows.csv trace.txt)
scene "its replay, the words in another order" 0 "$(replayed 3 3 0 0 'N = 3')" "" replay --trace trace.txt --plant rows.csv s.st
printf 't\n0\n10\n20\n30\n' > more.csv
printf 't\n0\n10\n' > fewer.csv
scene "its replay with a row more in the plant" 0 "$(replayed 3 3 0 0 'N = 3')" "" $(replay s.st more.csv trace.txt)
scene "its replay with a row less in the plant" 3 "" "fault V2" $(replay s.st fewer.csv trace.txt)
scene "its replay without a row in the plant" 3 "" "fault V2" $(replay s.st none.csv trace.txt)
scene "its replay with another text" 0 "$(replayed 3 3 0 0 'N = 3')" "" $(replay dint.st rows.csv trace.txt)
scene "its replay with a text of another layout" 0 "$(replayed 3 3 0 0 'N = 3' 'K = 10')" "" $(replay both.st rows.csv trace.txt)

# changed NAME COMMAND ANSWER: the trace with one change is refused with this answer
changed() {
    sed "$2" trace.txt > changed.txt
    cmp -s trace.txt changed.txt && fail "$1: nothing was changed"
    scene "a trace with $1" 3 "" "fault $3" $(replay s.st rows.csv changed.txt)
}
changed "another moment" 's/^row 10$/row 11/' V2
changed "the row before in an execution" 's/^done R.P 1 ok$/done R\/P 0 ok/' V3
changed "another outcome" '0,/ok/s/ok/F1/' V4
changed "one entry less at its end" 's/^end 6$/end 5/' V1
changed "no ticks" 's/^budget 10000$/budget 0/' V1
# The head.
changed "an empty line in front" '1i\\' V1
changed "another number of its format" '1s/1/3/' V1
changed "another start" 's/^start cold$/start hot/' V1
changed "no start" '/^start/d' V1
changed "a cold start with a moment" 's/^moment none$/moment 5/' V1
changed "a moment past its limit" 's/^start cold$/start warm/; s/^moment none$/moment 4611686018427387904/' V1
changed "a moment with a zero before it" 's/^start cold$/start warm/; s/^moment none$/moment 05/' V1
changed "a warm start from a moment that the first row is not later than" 's/^start cold$/start warm/; s/^moment none$/moment 0/' V2
changed "a cold start with a value that is not initial" 's/^keep N 0$/keep N 1/' V1
changed "no value" '/^keep/d' V1
changed "a value twice" 's/^keep N 0$/&\n&/' V1
changed "a value of another variable" 's/^keep N 0$/keep M 0/' V1
changed "a name in small letters" 's/^keep N 0$/keep n 0/' V1
changed "a value outside its type" 's/^start cold$/start warm/; s/^keep N 0$/keep N 32768/' V1
changed "a value with a zero before it" 's/^keep N 0$/keep N 00/' V1
changed "a value of minus zero" 's/^keep N 0$/keep N -0/' V1
changed "its lines in another order" '/^keep/d; s/^moment none$/keep N 0\n&/' V1
# Rows and executions.
changed "a moment of a row with a zero before it" 's/^row 10$/row 010/' V1
changed "a moment of a row past its limit" 's/^row 20$/row 4611686018427387904/' V1
changed "a row without a moment" 's/^row 10$/row/' V1
changed "a row twice" 's/^row 20$/&\n&/' V2
changed "a row of the plant left out" '/^row 10$/d; /P 1/d; s/^end 6$/end 4/' V2
changed "rows in another order" 's/^row 10$/row x/; s/^row 20$/row 10/; s/^row x$/row 20/' V2
changed "an execution twice" 's/^done R.P 1 ok$/&\n&/' V3
changed "an execution before its row" '/^row 0$/d; s/^done R.P 0 ok$/&\nrow 0/' V3
changed "an execution of a row that comes later" 's/^done R.P 0 ok$/done R\/P 2 ok/' V3
changed "an execution of no row" 's/^done R.P 2 ok$/done R\/P 7 ok/' V3
changed "a row number with a zero before it" 's/^done R.P 1 ok$/done R\/P 01 ok/' V1
changed "an execution of no program" 's/^done R.P 1 ok$/done R\/Q 1 ok/' V1
changed "an execution on no resource" 's/^done R.P 1 ok$/done S\/P 1 ok/' V1
changed "a program in small letters" 's/^done R.P 1 ok$/done r\/p 1 ok/' V1
changed "a fault without a number" 's/^done R.P 1 ok$/done R\/P 1 F/' V1
changed "a fault of no number" 's/^done R.P 1 ok$/done R\/P 1 F7/' V1
changed "no outcome" 's/^done R.P 1 ok$/done R\/P 1/' V1
for fault in F2 F3 F4 F5 F6; do changed "the outcome $fault" "s/^done R.P 1 ok\$/done R\/P 1 $fault/" V4; done
changed "an execution left out" '/^done R.P 2 ok$/d' V1
changed "an execution left out, which is then an overrun, and the next of another row" '/^done R.P 1 ok$/d' V3
changed "a word of no entry" 's/^row 10$/rows 10/' V1
changed "a space after a line" 's/^row 10$/& /' V1
changed "a CR after a line" 's/^row 10$/&\r/' V1
changed "an empty line" 's/^row 10$/&\n/' V1
changed "a byte that isn't ASCII" 's/^row 10$/row \xC310/' V1
# Its end.
changed "one entry more at its end" 's/^end 6$/end 7/' V1
changed "a zero before the number of its entries" 's/^end 6$/end 06/' V1
changed "no end" '/^end/d' V1
changed "its end twice" 's/^end 6$/&\n&/' V1
changed "an entry after its end" 's/^end 6$/&\nrow 30/' V1
head -c -1 trace.txt > changed.txt
scene "a trace without its last LF" 3 "" "fault V1" $(replay s.st rows.csv changed.txt)
{ cat trace.txt; printf '\n'; } > changed.txt
scene "a trace with an LF more" 3 "" "fault V1" $(replay s.st rows.csv changed.txt)
# Changes that make another valid trace.
sed 's/^budget 10000$/budget 1/' trace.txt > changed.txt
scene "a trace with other ticks" 0 "$(replayed 3 3 0 0 'N = 3')" "" $(replay s.st rows.csv changed.txt)
sed 's/^start cold$/start warm/; s/^keep N 0$/keep N 7/' trace.txt > changed.txt
scene "a trace of a warm start without a record" 0 "$(replayed 3 3 0 0 'N = 10')" "" $(replay s.st rows.csv changed.txt)
sed '/ 2 ok$/d; s/^end 6$/end 5/' trace.txt > changed.txt
scene "a trace that ends before its last execution" 0 "$(replayed 3 2 0 0 'N = 2')" "" $(replay s.st rows.csv changed.txt)
sed '/ 1 ok$/d; /^row 20$/d; /^done .* 2 /d; s/^end 6$/row 20\ndone R\/P 1 ok\nend 5/' trace.txt > changed.txt
scene "a trace with an overrun" 0 "$(replayed 3 2 0 1 'N = 2')" "" $(replay s.st rows.csv changed.txt)
sed '5q' trace.txt > changed.txt
echo "end 0" >> changed.txt
scene "a trace without entries" 0 "$(replayed 0 0 0 0 'N = 0')" "" $(replay s.st rows.csv changed.txt)

# Traces of lives in which four rows were latched before anything ran: SINGLE of each row decides which programs are due, an execution has the
# inputs of its own row, and a program that is due again while it waits has an overrun. A run latches a row when nothing waits.
cat > three.st <<'END'
PROGRAM Add VAR_EXTERNAL n : LINT; END_VAR VAR_EXTERNAL CONSTANT v : INT; END_VAR n := n * 100 + INT_TO_LINT(v); END_PROGRAM
CONFIGURATION C
VAR_GLOBAL s AT %IX0 : BOOL; v AT %IW0 : INT; n : LINT; END_VAR
RESOURCE R ON CPU
TASK T1 (SINGLE := s, INTERVAL := T#10ms, PRIORITY := 1);
TASK T2 (INTERVAL := T#20ms, PRIORITY := 1);
TASK T3 (SINGLE := s, PRIORITY := 0);
PROGRAM P1 WITH T1 : Add;
PROGRAM P2 WITH T2 : Add;
PROGRAM P3 WITH T3 : Add;
END_RESOURCE
END_CONFIGURATION
END
printf 't,s,v\n0,0,11\n5,1,22\n10,1,33\n20,0,44\n' > three.csv
# latched LINE..: makes a trace of the four rows, and then these executions
latched() {
    printf '%s\n' 'trace 1' 'budget 10000' 'start cold' 'moment none' 'row 0' 'row 5' 'row 10' 'row 20' "$@" "end $((4 + $#))" > latched.txt
}
scene "three tasks, each row when nothing waits" 0 "$(report 4 6 0 0 10 'N = 111122224444')" "" $(run three.st three.csv tasks cold)
latched
scene "four rows and no execution" 0 "$(replayed 4 0 0 3 'N = 0')" "" $(replay three.st three.csv latched.txt)
latched 'done R/P3 1 ok' 'done R/P1 0 ok' 'done R/P2 0 ok'
scene "four rows, then three executions" 0 "$(replayed 4 3 0 3 'N = 221111')" "" $(replay three.st three.csv latched.txt)
latched 'done R/P2 0 ok' 'done R/P1 0 ok' 'done R/P3 1 ok'
scene "four rows, then three executions, the best one last" 0 "$(replayed 4 3 0 3 'N = 111122')" "" $(replay three.st three.csv latched.txt)
for line in 'R/P1 1' 'R/P1 3' 'R/P2 1' 'R/P2 3' 'R/P3 0' 'R/P3 2' 'R/P3 3'; do
    latched "done $line ok"
    scene "four rows, then $line" 3 "" "fault V3" $(replay three.st three.csv latched.txt)
done
latched 'done R/P1 0 ok' 'done R/P1 3 ok'
scene "an overrun is not queued" 3 "" "fault V3" $(replay three.st three.csv latched.txt)

# A warm life, with its moment and a variable that isn't retained.
scene "a cold life of two globals" 0 "$(report 3 3 0 0 6 'N = 3' 'K = 10')" "" $(run both.st rows.csv warmed cold)
scene "a warm life with a trace" 0 "$(report 1 1 0 0 2 'N = 4' 'K = 8')" "" $(run both.st next.csv warmed warm) --trace warm.txt
has_text "a warm life with a trace" warm.txt <<'END'
trace 1
budget 10000
start warm
moment 20
keep N 3
row 30
done R/P 0 ok
end 2
END
scene "the replay of a warm life" 0 "$(replayed 1 1 0 0 'N = 4' 'K = 8')" "" $(replay both.st next.csv warm.txt)
scene "a life without rows" 0 "$(report 0 0 0 0 0 'N = 4' 'K = 7')" "" $(run both.st none.csv warmed warm) --trace warm.txt
scene "the replay of a life without rows" 0 "$(replayed 0 0 0 0 'N = 4' 'K = 7')" "" $(replay both.st none.csv warm.txt)

# If a trace can't be written, the run has still completed, its retain file has all of it, and there is no report.
# unwritten NAME FILE: the trace can't be written there
unwritten() {
    scene "$1" 3 "" "fault V6" $(run s.st rows.csv untraced cold) --trace "$2"
    scene "what is kept after $1" 0 "$(report 0 0 0 0 0 'N = 3')" "" $(run s.st none.csv untraced warm)
    scene "a row at the last moment after $1" 5 "" "fault K4" $(run s.st last.csv untraced warm)
    rm untraced
}
unwritten "a trace into a folder" .
unwritten "a trace into a folder that isn't there" folder/trace.txt
unwritten "a trace that takes no more" /dev/full
unwritten "a trace into the retain file by another name, where neither was there" ./untraced
printf 'kept' > kept.txt
refused "a trace of a refused start" 4 $(run s.st rows.csv long cold) --trace kept.txt
refused "a trace of a run that is stopped" 5 $(run both.st last.csv both warm) --trace kept.txt
refused "a trace of a refused source" 2 $(run word.st rows.csv made cold) --trace kept.txt
refused "a trace of a refused plant" 3 $(run s.st twice.csv made cold) --trace kept.txt
[ "$(cat kept.txt)" = kept ] || fail "a run that did not succeed wrote a trace"
refused "a trace that isn't there, of a refused source" 2 $(run word.st rows.csv made cold) --trace unmade
[ ! -e unmade ] || fail "a refused run made a trace"
scene "a trace in place of another file" 0 "$(report 3 3 0 0 6 'N = 3')" "" $(run s.st rows.csv traced cold) --trace kept.txt
has_text "a trace in place of another file" kept.txt < trace.txt

# A budget is 1 to 1,000,000 ticks. If it is accepted, this text is refused since it has no configuration.
for ticks in 1 1000000 0001000000; do
    scene "$ticks ticks" 2 "" "fault G2" $(run good.st none.csv made warm) --budget $ticks
done
for ticks in 0 1000001 4294967295; do
    scene "$ticks ticks" 2 "" "fault G7" $(run good.st none.csv made warm) --budget $ticks
done
# A statement takes a tick; the default budget is 10,000. A faulted execution writes nothing.
statements() {
    echo "PROGRAM Add VAR_EXTERNAL n : INT; END_VAR $(several "$1" 'n := n + 1;') END_PROGRAM"
    sed '/^PROGRAM Add/d' s.st
}
printf 't\n0\n' > first.csv
statements 7 > seven.st
scene "ticks for each statement" 0 "$(report 1 1 0 0 2 'N = 7')" "" $(run seven.st first.csv ticks cold) --budget 007
scene "a tick too few" 0 "$(report 1 1 1 0 2 'N = 0')" "" $(run seven.st first.csv ticks cold) --budget 6 --trace ticks.txt
has_text "a tick too few" ticks.txt <<'END'
trace 1
budget 6
start cold
moment none
keep N 0
row 0
done R/P 0 F5
end 2
END
scene "the replay of a tick too few" 0 "$(replayed 1 1 1 0 'N = 0')" "" $(replay seven.st first.csv ticks.txt)
sed -i 's/^budget 6$/budget 7/' ticks.txt
scene "the replay with the missing tick" 3 "" "fault V4" $(replay seven.st first.csv ticks.txt)
# a WHILE takes a tick, each turn one more, and each statement within it
looped() { sed "s/n := n + 1;/WHILE n < 4999 DO n := n + 1; END_WHILE; $1/" s.st; }
looped "n := n + 1;" > default.st
scene "10,000 ticks without a word" 0 "$(report 1 1 0 0 2 'N = 5000')" "" $(run default.st first.csv ticks cold)
looped "n := n + 1; n := n + 1;" > past.st
scene "one statement more" 0 "$(report 1 1 1 0 2 'N = 0')" "" $(run past.st first.csv ticks cold)
scene "10,001 ticks" 0 "$(report 1 1 0 0 2 'N = 5001')" "" $(run past.st first.csv ticks cold) --budget 10001
scene "no ticks for no source" 2 "" "fault X1" $(run none.st none.csv made warm) --budget 0
[ ! -e made ] || fail "a refused run made a retain file"

# A source has at most 1,048,576 bytes.
spaces() {
    head -c "$1" /dev/zero | tr '\0' ' ' > spaces.st
}
spaces 1048576
scene "a source of 1,048,576 bytes" 2 "" "fault G2" check spaces.st
spaces 1048577
scene "a source of 1,048,577 bytes" 2 "" "fault L5 at 0" check spaces.st
spaces 2000000
scene "a source of 2,000,000 bytes" 2 "" "fault L5 at 0" check spaces.st

# change NAME OLD NEW FAULT: the first text with one part changed is refused with this fault
change() {
    sed "s/$2/$3/" s.st > changed.st
    cmp -s s.st changed.st && fail "$1: nothing was changed"
    scene "$1" 2 "" "fault $4" check changed.st
}
# grows NAME OLD NEW SIZES..: the first text with one part changed is accepted, and has these sizes
grows() {
    sed "s/$2/$3/" s.st > changed.st
    cmp -s s.st changed.st && fail "$1: nothing was changed"
    scene "$1" 0 "$(printf '%s\n' "resources $4" "tasks $5" "programs $6" "slots $7" "retained $8")" "" check changed.st
}
change "an unknown global" 'RETAIN n' 'RETAIN m' G3
change "a global of another type" 'RETAIN n : INT' 'RETAIN n : DINT' G3
change "a constant external" 'VAR_EXTERNAL n : INT; END_VAR n := n + 1;' 'VAR_EXTERNAL CONSTANT n : INT; END_VAR' G3
change "a constant external that is assigned" 'VAR_EXTERNAL n' 'VAR_EXTERNAL CONSTANT n' 'C5 at 51'
change "an unknown task" 'WITH T' 'WITH U' G3
change "an unknown program" ': Add' ': Sub' G3
change "a program without a task" 'WITH T ' '' G8
grows "an output" 'RETAIN n : INT' 'n AT %QW0 : INT' 1 1 1 1 0
change "an output under RETAIN" 'RETAIN n : INT' 'RETAIN n AT %QW0 : INT' 'C11 at 100'
change "an address past its range" 'RETAIN n : INT' 'n AT %QW256 : INT' G4
change "an address of another width" 'RETAIN n : INT' 'n AT %QX0 : INT' G4
change "an input that is assigned" 'RETAIN n : INT' 'n AT %IW0 : INT' G3
grows "a task with a priority" 'PRIORITY := 0' 'PRIORITY := 1' 1 1 1 1 1
change "a priority over 65535" 'PRIORITY := 0' 'PRIORITY := 65536' 'C4 at 175'
grows "a program of its own variable" 'VAR_EXTERNAL n' 'VAR n' 1 1 1 2 1
grows "a global of another width" 'RETAIN n : INT;' 'RETAIN n : INT; k : LINT;' 1 1 1 2 2
grows "a global that isn't a number" 'RETAIN n : INT;' 'RETAIN n : INT; k : BOOL;' 1 1 1 2 2
sed 's/n + 1/n + 32767/' s.st > greatest.st
scene "the greatest literal of its type" 0 "$(printf '%s 1\n' resources tasks programs slots retained)" "" check greatest.st
grows "a loop" 'n := n + 1' 'WHILE n < 1 DO n := 1; END_WHILE' 1 1 1 1 1
change "a literal outside its type" 'n + 1' 'n + 32768' 'C4 at 51'
change "a variable that isn't declared" 'n + 1' 'm + 1' 'C1 at 47'
change "a program declared twice" 'CONFIGURATION C' 'PROGRAM Add END_PROGRAM CONFIGURATION C' 'C2 at 74'
change "a function that calls itself" 'CONFIGURATION C' 'FUNCTION f : INT f := f(); END_FUNCTION CONFIGURATION C' 'C6 at 75'
change "a reversed range of labels" 'n := n + 1' 'CASE n OF 1..0: ; END_CASE' 'C7 at 52'
change "an exit outside of loops" 'n := n + 1' 'EXIT' 'C9 at 42'
change "an argument too many" 'n + 1' 'ABS(n, 1)' 'C10 at 47'
change "bounds in the wrong order" 'VAR_GLOBAL RETAIN' 'VAR_GLOBAL a : ARRAY [2..1] OF INT; END_VAR VAR_GLOBAL RETAIN' 'C8 at 104'
change "a list longer than its array" 'VAR_GLOBAL RETAIN' 'VAR_GLOBAL a : ARRAY [1..2] OF INT := [3(0)]; END_VAR VAR_GLOBAL RETAIN' 'C8 at 120'
change "an address under RETAIN" 'RETAIN n : INT;' 'RETAIN m AT %IW0 : INT; n : INT;' 'C11 at 100'
change "a second configuration" 'END_CONFIGURATION' 'END_CONFIGURATION CONFIGURATION D RESOURCE R ON CPU PROGRAM P : Add; END_RESOURCE END_CONFIGURATION' G2

# Addresses; the valid ones are inputs or outputs.
change "an address one past its range" 'RETAIN n : INT;' 'n : INT; b AT %IX1024 : BOOL;' G4
change "a word one past its range" 'RETAIN n : INT;' 'n : INT; b AT %IW256 : WORD;' G4
change "a bit of a word's width" 'RETAIN n : INT;' 'n : INT; b AT %IX0 : WORD;' G4
change "a word of a bit's width" 'RETAIN n : INT;' 'n : INT; b AT %IW0 : BOOL;' G4
change "an array at an address" 'RETAIN n : INT;' 'n : INT; b AT %IX0 : ARRAY [0..1] OF BOOL;' G4
change "a word of four bytes" 'RETAIN n : INT;' 'n : INT; b AT %IW0 : DINT;' G4
change "an address twice" 'RETAIN n : INT;' 'n : INT; b AT %IX7 : BOOL; c AT %IX007 : BOOL;' G4
change "an output twice" 'RETAIN n : INT;' 'n : INT; b AT %QX7 : BOOL; c AT %QX7 : BOOL;' G4
change "an input with an initial value" 'RETAIN n : INT;' 'n : INT; b AT %IX0 : BOOL := TRUE;' G4
change "a constant at an address" 'RETAIN n : INT;' 'n : INT; END_VAR VAR_GLOBAL CONSTANT b AT %QX0 : BOOL;' G4
grows "an output with an initial value" 'RETAIN n : INT;' 'n : INT; b AT %QX0 : BOOL := TRUE;' 1 1 1 2 0
grows "an output beside an input of its number" 'RETAIN n : INT;' 'n : INT; b AT %QX0 : BOOL; c AT %IX0 : BOOL;' 1 1 1 2 0

# Names of nothing, or of something else.
change "an external of a program that isn't run" 'CONFIGURATION C' 'PROGRAM Sub VAR_EXTERNAL m : INT; END_VAR END_PROGRAM CONFIGURATION C' G3
change "an external of a block" 'CONFIGURATION C' 'FUNCTION_BLOCK Sub VAR_EXTERNAL m : INT; END_VAR END_FUNCTION_BLOCK CONFIGURATION C' G3
change "a constant that is assigned" 'RETAIN n : INT' 'CONSTANT n : INT' G3
change "a block in place of a program" '^PROGRAM Add\(.*\)END_PROGRAM' 'FUNCTION_BLOCK Add\1END_FUNCTION_BLOCK' G3
change "a SINGLE that isn't there" 'INTERVAL' 'SINGLE := m, INTERVAL' G3
change "a SINGLE that isn't BOOL" 'INTERVAL' 'SINGLE := n, INTERVAL' G3

# Texts of the whole language, and the parts of a configuration.
scene "most of the language in one text" 0 "$(printf '%s\n' 'resources 1' 'tasks 2' 'programs 2' 'slots 63' 'retained 9')" "" check "$texts/conveyor.st"
scene "the rest of the language in one text" 0 "$(printf '%s\n' 'resources 1' 'tasks 2' 'programs 2' 'slots 103' 'retained 14')" "" check "$texts/recipe.st"
grows "a type" 'CONFIGURATION C' 'TYPE Pair : ARRAY [0..1] OF INT; END_TYPE CONFIGURATION C' 1 1 1 1 1
grows "a constant" 'RETAIN n : INT;' 'RETAIN n : INT; END_VAR VAR_GLOBAL CONSTANT k : INT := 1;' 1 1 1 2 1
grows "a task without an interval" 'INTERVAL := T#10ms, ' '' 1 1 1 1 1
grows "a task that two programs run in" 'PROGRAM P WITH T : Add;' 'PROGRAM P WITH T : Add; PROGRAM Q WITH T : Add;' 1 1 2 1 1
grows "a task that no program runs in" 'PROGRAM P' 'TASK U (INTERVAL := T#10ms, PRIORITY := 0); PROGRAM P' 1 2 1 1 1
# A record of a LINT array has 12 bytes, and for each element its path, a blank, LINT, LF and 8 bytes.
array() {
    printf 'PROGRAM E END_PROGRAM CONFIGURATION C VAR_GLOBAL RETAIN %s : ARRAY [1..4096] OF LINT; END_VAR\n' "$1"
    echo 'RESOURCE R ON CPU TASK T (PRIORITY := 0); PROGRAM P WITH T : E; END_RESOURCE END_CONFIGURATION'
}
array abcdefghijkl > array.st
scene "an array with a name of 12 letters" 0 "$(printf '%s\n' 'resources 1' 'tasks 1' 'programs 1' 'slots 4096' 'retained 4096')" "" check array.st
"$plant" run array.st --plant none.csv --store array.retain --start cold > out
[ "$(od -An -tu4 --endian=big -j 9 -N 4 array.retain | tr -d ' ')" = 129977 ] || fail "an array with a name of 12 letters: another body"
scenes=$((scenes + 1))
array abcdefghijklm > array.st
scene "an array with a name of 13 letters" 2 "" "fault G6" check array.st
"$plant" check array.st --explain 2> err && fail "an array with a name of 13 letters: accepted"
grep -q ' over 131059 bytes' err || fail "an array with a name of 13 letters: $(cat err)"
scenes=$((scenes + 1))
# Blocks, each with two instances of the one before: over a million instances.
{
    echo 'FUNCTION_BLOCK F0 END_FUNCTION_BLOCK'
    for ((i = 1; i <= 20; i++)); do echo "FUNCTION_BLOCK F$i VAR a, b : F$((i - 1)); END_VAR END_FUNCTION_BLOCK"; done
    echo 'PROGRAM E VAR f : F20; END_VAR END_PROGRAM CONFIGURATION C RESOURCE R ON CPU TASK T (PRIORITY := 0);'
    echo 'PROGRAM P WITH T : E; END_RESOURCE END_CONFIGURATION'
} > doubled.st
scene "blocks that double twenty times" 2 "" "fault M1" check doubled.st
# Functions that each call the one before twice. Their code is inlined: over a million copies.
{
    echo 'FUNCTION F0 : INT F0 := 1; END_FUNCTION'
    for ((i = 1; i <= 20; i++)); do echo "FUNCTION F$i : INT F$i := F$((i - 1))() + F$((i - 1))(); END_FUNCTION"; done
    echo 'PROGRAM E VAR n : INT; END_VAR n := F20(); END_PROGRAM CONFIGURATION C RESOURCE R ON CPU TASK T (PRIORITY := 0);'
    echo 'PROGRAM P WITH T : E; END_RESOURCE END_CONFIGURATION'
} > called.st
refused "functions that double twenty times" 2 check called.st
grep -qE '^fault M[12]$' err || fail "functions that double twenty times: printed $(cat err)"
# A function with more values than a program has room for.
{
    echo 'FUNCTION F : INT VAR a : ARRAY [1..4096] OF INT; END_VAR F := a[1]; END_FUNCTION PROGRAM E VAR n : INT; END_VAR n := F(); END_PROGRAM'
    echo 'CONFIGURATION C RESOURCE R ON CPU TASK T (PRIORITY := 0); PROGRAM P WITH T : E; END_RESOURCE END_CONFIGURATION'
} > places.st
scene "a function of 4,097 values" 2 "" "fault M1" check places.st
sed -i 's/4096/4095/' places.st
scene "a function of 4,096 values" 0 "$(printf '%s 1\n' resources tasks programs slots; echo 'retained 0')" "" check places.st
# 20,000 statements take more than 16,384 instructions.
{
    echo 'PROGRAM E VAR n : INT; END_VAR'
    several 20000 'n := n + 1;'
    echo 'END_PROGRAM CONFIGURATION C RESOURCE R ON CPU TASK T (PRIORITY := 0); PROGRAM P WITH T : E; END_RESOURCE END_CONFIGURATION'
} > statements.st
scene "20,000 statements" 2 "" "fault M2" check statements.st

# Texts at a limit, and one past it.
# resource NUMBER COUNT: a resource with COUNT programs, each in a task of its own
resource() {
    echo "RESOURCE R$1 ON CPU"
    several "$2" 'TASK T@ (INTERVAL := T#10ms, PRIORITY := 0);'
    several "$2" 'PROGRAM P@ WITH T@ : Add;'
    echo END_RESOURCE
}
# limit NAME STATUS OUTPUT ERROR GLOBALS RESOURCES: the first text with these blocks of globals and these resources gets this answer
limit() {
    sed '/^CONFIGURATION/,$d' s.st > limit.st
    printf '%s\n' 'CONFIGURATION C' 'VAR_GLOBAL n : INT; END_VAR' "$5" "$6" END_CONFIGURATION >> limit.st
    scene "$1" "$2" "$3" "$4" check limit.st
}
# sizes RESOURCES PROGRAMS SLOTS RETAINED: the output of check for a text with a task for each program
sizes() {
    printf '%s\n' "resources $1" "tasks $2" "programs $2" "slots $3" "retained $4"
}
one=$(resource 1 1)
eight=$(for r in 1 2 3 4 5 6 7 8; do resource $r 1; done)
limit "8 resources" 0 "$(sizes 8 8 1 0)" "" "" "$eight"
limit "9 resources" 2 "" "fault G5" "" "$eight $(resource 9 1)"
limit "32 tasks on a resource" 0 "$(sizes 1 32 1 0)" "" "" "$(resource 1 32)"
limit "33 tasks on a resource" 2 "" "fault G5" "" "$(resource 1 33)"
limit "64 programs" 0 "$(sizes 2 64 1 0)" "" "" "$(resource 1 32) $(resource 2 32)"
limit "65 programs" 2 "" "fault G5" "" "$(resource 1 32) $(resource 2 32) $(resource 3 1)"
limit "4,096 paths" 0 "$(sizes 1 1 4096 0)" "" "VAR_GLOBAL $(several 4095 'v@ : INT;') END_VAR" "$one"
limit "4,097 paths" 2 "" "fault M1" "VAR_GLOBAL $(several 4096 'v@ : INT;') END_VAR" "$one"
limit "4,096 paths and an input" 2 "" "fault M1" "VAR_GLOBAL $(several 4095 'v@ : INT;') i AT %IX0 : BOOL; END_VAR" "$one"
limit "addresses at the ends of their ranges" 0 "$(sizes 1 1 1 0)" "" "VAR_GLOBAL a AT %IX0 : BOOL; b AT %IX1023 : BOOL; c AT %IW0 : INT; d AT %IW7 : UINT; e AT %IW255 : WORD; END_VAR" "$one"
# A record's body has 12 bytes and the bytes of each variable: 74 for a DINT with a name of 64 letters, 67 for one of 57.
retained=$(for ((i = 1; i <= 1770; i++)); do printf 'v%063d : DINT;\n' "$i"; done)
limit "a record of 131,059 bytes" 0 "$(sizes 1 1 1772 1771)" "" "VAR_GLOBAL RETAIN $retained $(printf 'w%056d' 0) : DINT; END_VAR" "$one"
longest=$(sed -n 's/^v\([0-9]*\) .*/V\1 = 0/p' <<< "$retained")
scene "a record of 131,059 bytes, cold" 0 "$(report 0 0 0 0 0 'N = 0' "$longest" "W$(printf '%056d' 0) = 0")" "" $(run limit.st none.csv longest cold)
scene "a record of 131,059 bytes, warm" 0 "$(report 0 0 0 0 0 'N = 0' "$longest" "W$(printf '%056d' 0) = 0")" "" $(run limit.st none.csv longest warm)
limit "a record of 131,060 bytes" 2 "" "fault G6" "VAR_GLOBAL RETAIN $retained $(printf 'w%057d' 0) : DINT; END_VAR" "$one"

# The code of a program, and the places for the values of its functions, at their limits and one past them.
# program NAME STATUS OUTPUT ERROR UNITS BODY: a text of these units and one program with this body gets this answer
program() {
    printf '%s\n' "$5" 'PROGRAM E VAR n : INT; END_VAR' "$6" 'END_PROGRAM CONFIGURATION C RESOURCE R ON CPU' \
        'TASK T (PRIORITY := 0); PROGRAM P WITH T : E; END_RESOURCE END_CONFIGURATION' > program.st
    scene "$1" "$2" "$3" "$4" check program.st
}
# called COUNT BODY: a function G with one value, and a function F with COUNT + 1 values and this body
called() {
    printf '%s\n' 'FUNCTION G : INT G := 1; END_FUNCTION' "FUNCTION F : INT VAR a : ARRAY [1..$1] OF INT; END_VAR $2 END_FUNCTION"
}
# An empty statement takes one instruction.
empty=$(printf '%16384s' '' | tr ' ' ';')
program "16,384 instructions" 0 "$(sizes 1 1 1 0)" "" "" "$empty"
program "16,385 instructions" 2 "" "fault M2" "" "$empty;"
program "4,096 places in a function" 0 "$(sizes 1 1 1 0)" "" "$(called 4095 'F := 1;')" 'n := F();'
program "4,097 places in a function" 2 "" "fault M1" "$(called 4096 'F := 1;')" 'n := F();'
program "4,097 places in a function that is not called" 0 "$(sizes 1 1 1 0)" "" "$(called 4096 'F := 1;')" 'n := G();'
program "4,096 places in two functions" 0 "$(sizes 1 1 1 0)" "" "$(called 4094 'F := G();')" 'n := F();'
program "4,097 places in two functions" 2 "" "fault M1" "$(called 4095 'F := G();')" 'n := F();'
program "4,096 places one after the other" 0 "$(sizes 1 1 1 0)" "" "$(called 4095 'F := 1;')" 'n := F(); n := G();'
# A block that takes the whole layout, and one without instances that no layout has room for.
printf '%s\n' 'FUNCTION_BLOCK B VAR a : ARRAY [1..4096] OF INT; END_VAR a[4096] := a[4096] + 2; END_FUNCTION_BLOCK' \
    'PROGRAM E VAR x : B; END_VAR x(); END_PROGRAM CONFIGURATION C RESOURCE R ON CPU TASK T (PRIORITY := 0);' \
    'PROGRAM P WITH T : E; END_RESOURCE END_CONFIGURATION' > block.st
scene "a block of 4,096 slots" 0 "$(sizes 1 1 4096 0)" "" check block.st
program "a block of 4,097 slots without an instance" 0 "$(sizes 1 1 1 0)" "" \
    'FUNCTION_BLOCK B VAR a : ARRAY [1..4096] OF INT; c : INT; END_VAR c := 1; END_FUNCTION_BLOCK' ';'

# A retain file of 4,095 counters; the text also has a variable that isn't retained. The counters begin at 5 in one text, and at 0 in another
# of the same layout.
counters=$(several 4095 'V@ = 5')
limit "4,095 counters" 0 "$(sizes 1 1 4096 4095)" "" "VAR_GLOBAL RETAIN $(several 4095 'v@ : INT;') END_VAR" "$one"
sed 's/v[0-9]* : INT/& := 5/' limit.st > fives.st
scene "4,095 counters, cold" 0 "$(report 1 1 0 0 2 'N = 1' "$counters")" "" $(run fives.st first.csv many cold)
scene "4,095 counters, warm" 0 "$(report 0 0 0 0 0 'N = 0' "$counters")" "" $(run limit.st none.csv many warm)
# named NAME: makes a file in which the last counter has this name of five letters instead
named() {
    LC_ALL=C sed "s/^V4095 INT$/$1 INT/" many > renamed
}
named V4096
scene "4,095 counters, the last one named V4096 in the file" 0 "$(report 0 0 0 0 0 'N = 0' "${counters%5}0")" \
    "$(over_another 4094 1 0 1)" $(run limit.st none.csv renamed warm)
# twice NAME: a file in which two counters have this name is refused, and stays unchanged
twice() {
    named "$1"
    cp renamed before
    scene "a counter named $1 twice" 4 "" "fault S2" $(run limit.st none.csv renamed warm)
    cmp -s renamed before || fail "a refused file was changed"
}
twice V4094
twice V1000

# Each beginning of the first text that ends before the last letter of its last word is refused: it ends within a literal or a name, isn't a
# sentence of the grammar, or has no configuration.
whole=$(cat s.st)
for ((count = 0; count < ${#whole}; count++)); do
    printf '%s' "${whole:0:count}" > front.st
    found=0
    "$plant" check front.st > out 2> err || found=$?
    [ "$found" -eq 2 ] && [ ! -s out ] || fail "the first $count bytes of a text: status $found"
    grep -qE '^fault ((L2|L3|P1) at [0-9]+|G2)$' err || fail "the first $count bytes of a text: printed $(cat err)"
    scenes=$((scenes + 1))
done
printf '%s' "$whole" > front.st
scene "the whole text without an LF at its end" 0 "$(printf '%s 1\n' resources tasks programs slots retained)" "" check front.st

# Texts, plants and retain files that nobody writes by hand.
# deep COUNT BEFORE OPENING MIDDLE CLOSING AFTER: makes a text with COUNT openings and closings
deep() {
    printf '%s' "$2" > deep.st
    printf "%.0s$3" $(seq "$1") >> deep.st
    printf '%s' "$4" >> deep.st
    printf "%.0s$5" $(seq "$1") >> deep.st
    printf '%s' "$6" >> deep.st
}
deep 62 'PROGRAM p VAR x : INT; END_VAR x := ' '(' 1 ')' '; END_PROGRAM'
scene "62 parentheses" 2 "" "fault G2" check deep.st
for count in 63 10000; do
    deep $count 'PROGRAM p VAR x : INT; END_VAR x := ' '(' 1 ')' '; END_PROGRAM'
    scene "$count parentheses" 2 "" "fault P2" check deep.st
done
for count in 64 10000; do
    deep $count 'PROGRAM p VAR x : ARRAY [0..1] OF INT := ' '[' 1 ']' '; END_VAR END_PROGRAM'
    scene "$count brackets" 2 "" "fault P2" check deep.st
done
: > nothing
scene "an empty text" 2 "" "fault G2" check nothing
printf '(*12345\xC3*)' > byte.st
scene "a byte that isn't allowed, in a comment" 2 "" "fault L1 at 0" check byte.st
printf 'PROGRAM p\x00 END_PROGRAM' > byte.st
scene "a byte that isn't allowed, after a word" 2 "" "fault L1 at 9" check byte.st
sed 's/RETAIN n : INT;/RETAIN n : INT; END_VAR VAR_GLOBAL i AT %IW0 : INT;/' s.st > input.st
# refused_plant NAME FAULT: the plant odd.csv, for a text with one INT input, is refused with this fault, and no retain file is made
refused_plant() {
    scene "a plant with $1" 3 "" "fault $2" $(run input.st odd.csv made cold)
    [ ! -e made ] || fail "a refused plant made a retain file"
}
: > odd.csv
refused_plant "no bytes" I1
{ echo t,i; seq -f '%g,0' 0 10000; } > odd.csv
refused_plant "10,001 rows" I4
printf 't,i\n0,\xFF\n' > odd.csv
refused_plant "a field that isn't UTF-8" I2
printf 't,\xFF\n0,0\n' > odd.csv
refused_plant "a header that isn't UTF-8" I1
printf 't,i\n0,32768\n' > odd.csv
refused_plant "a value one past its type" I2
printf 't,i\n4611686018427387904,0\n' > odd.csv
refused_plant "a moment one past its limit" I2
printf 't,i\n0,"0\n' > odd.csv
refused_plant "a quotation that doesn't end" I2
{ echo t,i; seq -f '%g,-32768' 0 9999; } > odd.csv
scene "a plant of 10,000 rows" 0 "$(report 10000 1000 0 0 11000 'N = 1000')" "" $(run input.st odd.csv whole cold)

# More names of one type than the table of names can have.
{ printf 'TYPE T : (N0'; several 70000 ', N@'; printf '); END_TYPE\n'; } | tr -d '\n' > enumeration.st
scene "70,000 names of one type" 2 "" "fault C13 at $(grep -bo 'N256,' enumeration.st | cut -d: -f1)" check enumeration.st

echo "program.sh: $scenes scenes as expected"
