#!/bin/sh
# Compares the datagrams of driver_world with plain Rust: `bench/packets.sh`, with `rt` and `rustc` on the path.
. "$(dirname "$0")/compare.sh"
compare packets driver_world_packets_c 'byte_strings channel_uri command_codec driver_core driver_world libc policy_core'
