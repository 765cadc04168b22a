#!/bin/sh
# Compares the verdicts of compiled_policy with plain Rust: `bench/verdicts.sh`, with `rt` and `rustc` on the path.
. "$(dirname "$0")/compare.sh"
compare verdicts compiled_policy_c 'byte_strings channel_uri compiled_policy libc policy_core'
