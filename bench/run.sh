#!/usr/bin/env bash
# Reports how fast `lex` is. Give the root of the repository. The MB/s of a line are its bytes divided by its microseconds.
set -e
. "$(dirname "$0")/copied.sh"
copied "$1" lex_bench 'anyhow thiserror' st_types st_lex
rt run
