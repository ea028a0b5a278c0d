#!/usr/bin/env bash
# Compiles the current sources to out/plant-unproved, with nothing proved, unless it is newer than all of them.
#
# usage: tools/unproved.sh     exits with 1 if the sources are refused, with 3 if the kit can't compile in this way
set -euo pipefail
cd "$(dirname "$0")/.."
# shellcheck source=tools/crates.sh
. tools/crates.sh

mkdir -p out
is_new out/unproved/plant src || tools/unproved.py plant_main out/unproved/plant
cp tools/plant-unproved out/plant-unproved
