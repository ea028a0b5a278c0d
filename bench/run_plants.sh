#!/usr/bin/env bash
# Reports how fast `read_plant` reads 1,250 to 10,000 rows of 64 inputs, and the peak memory of the process. Give the root of the
# repository.
set -e
. "$(dirname "$0")/copied.sh"
# shellcheck disable=SC2046 # names without blanks
copied "$1" plant_bench 'anyhow thiserror csv' $(below "$1" "config image")
rt run -- 1250
for rows in 2500 5000 10000; do out/plant_bench "$rows"; done
