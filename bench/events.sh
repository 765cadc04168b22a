#!/bin/sh
# Compares the events of driver_core with plain Rust: `bench/events.sh`, with `rt` and `rustc` on the path.
. "$(dirname "$0")/compare.sh"
compare events driver_core_c 'byte_strings channel_uri command_codec driver_core libc policy_core stream_registry'
