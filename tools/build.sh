#!/usr/bin/env bash
# Proves all crates of the program, independent ones in parallel, builds it, and leaves it as out/plant.
#
# It does the same as the gate, without edits and tests, on a copy. Finished proofs are kept on this machine, so a second call, after a stop
# or a change, continues from there, and 'make test' doesn't repeat them.
#
# usage: tools/build.sh
set -euo pipefail
cd "$(dirname "$0")/.."
# shellcheck source=tools/crates.sh
. tools/crates.sh

plant=$PWD/out/plant
log=$PWD/out/build.log
rt=$PWD/tools/rt.py
mkdir -p out
names=$(below . plant_main)
crates=$(wc -w <<< "$names")
copy=$(mktemp -d)
trap 'rm -rf "$copy"' EXIT
copy_parts "$names" "$copy" src specs proofs args stdout
started=$SECONDS

# progress: prints a line for each crate that is proved, or was before
progress() {
    local line done=0
    while IFS= read -r line; do
        case $line in
            "rt: "*" proved" | "rt: "*" is kept: "*)
                line=${line#rt: }
                done=$((done + 1))
                printf '%2d:%02d  %2d of %d  %s\n' $(((SECONDS - started) / 60)) $(((SECONDS - started) % 60)) "$done" "$crates" "${line%% *}"
                ;;
        esac
    done
}

echo "proving, with $(nproc) processors; the prover's output is in out/build.log"
cd "$copy"
"$rt" ci 2>&1 | tee "$log" | progress || { tail -n 40 "$log" >&2; exit 1; }
cp crates/plant_main/out/plant_main "$plant"
echo "out/plant is proved and built"
