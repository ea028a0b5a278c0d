#!/usr/bin/env bash
# Tries the edits of strength/ over a copy of the crates: the prover has to refuse each. The gate doesn't run this; run it if you change a crate.
#
# As in the gate, finished proofs and refused edits are kept on this machine.
#
# usage: tools/strength.sh [CRATE..]     all crates with edits by default
set -euo pipefail
cd "$(dirname "$0")/.."
# shellcheck source=tools/crates.sh
. tools/crates.sh

names=${*:-$(ls strength)}
for crate in $names; do
    [ -d "strength/$crate" ] || { echo "strength.sh: strength/ has no folder $crate" >&2; exit 1; }
done

log=$PWD/out/strength.log
rt=$PWD/tools/rt.py
mkdir -p out
copy=$(mktemp -d)
trap 'rm -rf "$copy"' EXIT
copy_parts "$(below . "$names")" "$copy" src specs proofs args stdin stdout
for crate in $names; do
    cp -r "strength/$crate" "$copy/crates/$crate/must-fail"
done
cd "$copy"
"$rt" ci > "$log" 2>&1 || true
grep 'must-fail' "$log" || { tail -n 40 "$log" >&2; exit 1; }

refused=$(grep -c ': refused, as it must be' "$log" || true)
edits=$(find crates/*/must-fail -name '*.edit' | wc -l)
echo "$refused refused, $((edits - refused)) not"
[ "$refused" -eq "$edits" ]
