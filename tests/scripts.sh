#!/usr/bin/env bash
# Runs all scripts over a program in parallel, since each works in its own folder, and prints the output of each.
#
# usage: tests/scripts.sh PLANT [SECONDS]     PLANT is the program. SECONDS, for a barely optimised program, is the time that all_faults.py, hostile.py and
#                                            layouts.py allow per text; refusals.py then refuses few requests. Exits with 1 if a script fails
set -euo pipefail
plant=$(realpath "$1")
shift
cd "$(dirname "$0")/.."

scripts=(program.sh rules.py language.py edges.py examples.sh replays.sh broken.py codes.py explanations.py explain.py all_faults.py
    shows.py layouts.py plots.py pictures.py progress.py flat.py kill.sh two_runs.py hostile.py refusals.py live.py segments.py)
outputs=$(mktemp -d)
trap 'rm -rf "$outputs"' EXIT
failed=0 running=()
for script in "${scripts[@]}"; do
    words=()
    case $script in
        all_faults.py | hostile.py | layouts.py) words=("$@") ;;
        flat.py) [ $# -eq 0 ] || words=(20) ;;
        live.py) [ $# -eq 0 ] || words=(20000) ;;
        refusals.py) [ $# -eq 0 ] || words=(--few) ;;
    esac
    "tests/$script" "$plant" "${words[@]}" > "$outputs/$script" 2>&1 &
    running+=($!)
done
for at in "${!scripts[@]}"; do
    wait "${running[at]}" || failed=1
    cat "$outputs/${scripts[at]}"
done

# A broker, a device and a bridge with time limits of their own come last, so that nothing else takes their time.
tests/live_parts.py "$plant" 2>&1 || failed=1
exit $failed
