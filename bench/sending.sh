#!/bin/sh
# Compares the sender of driver_world with plain Rust: `bench/sending.sh`, with `rt` and `rustc` on the path.
. "$(dirname "$0")/compare.sh"
compare sending driver_world_sending_c 'byte_strings channel_uri command_codec driver_core driver_world libc policy_core'
