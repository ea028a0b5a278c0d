#!/usr/bin/env bash
# Compiles the current sources, and runs the scripts of the gate over the program. It proves nothing, and its last line says so.
#
# It leaves out the programs of tests, which take minutes: 'make rows' runs those.
#
# usage: tools/try.sh
set -euo pipefail
cd "$(dirname "$0")/.."

# The CPU seconds allowed for each hard text. The slowest took 4.2 while the machine had other work, and 0.7 to 1.2 when compiled with -O1 and
# -O2; a start over the largest layout took 22. The gate allows the proved program 4.
seconds=60

echo "compiling the current sources, if one is newer than out/plant-unproved; 'make build' and 'make test' prove them"
result="not all passed, and nothing was proved" status=1
if tools/unproved.sh && tests/scripts.sh out/plant-unproved $seconds; then
    result="all passed, and nothing was proved" status=0
fi
echo "$result"
exit $status
