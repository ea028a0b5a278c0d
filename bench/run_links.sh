#!/usr/bin/env bash
# Reports how fast texts of 128 KiB to 1 MiB are linked, and texts that are hard to link. Give the root of the repository.
set -e
. "$(dirname "$0")/copied.sh"
# shellcheck disable=SC2046 # a line of crates is words without blanks
copied "$1" link_bench 'anyhow thiserror' $(below "$1" 'st_lex st_link')
rt run
