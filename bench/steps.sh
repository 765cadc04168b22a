#!/bin/sh
# Compares the steps of driver_world with plain Rust: `bench/steps.sh`, with `rt` and `rustc` on the path.
. "$(dirname "$0")/compare.sh"
compare steps driver_world_c 'byte_strings channel_uri command_codec driver_core driver_world policy_core'
