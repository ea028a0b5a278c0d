#!/usr/bin/env bash
# Reports how fast `Layout::build` lays out 4,096 paths. Give the root of the repository.
set -e
. "$(dirname "$0")/copied.sh"
# shellcheck disable=SC2046 # a line of crates is words without blanks
copied "$1" layout_bench 'anyhow thiserror' $(below "$1" layout)
rt run
