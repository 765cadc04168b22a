#!/bin/sh
# Compares term_log with plain Rust: `bench/logs.sh`, with `rt` and `rustc` on the path.
. "$(dirname "$0")/compare.sh"
compare logs term_log_c 'log_arena term_log'
