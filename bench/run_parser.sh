#!/usr/bin/env bash
# Reports how fast texts of 128 KiB to 1 MiB are lexed and parsed. Give the root of the repository.
set -e
. "$(dirname "$0")/copied.sh"
copied "$1" parse_bench 'anyhow thiserror' st_types st_lex st_parse
rt run
