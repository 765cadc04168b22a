#!/bin/sh
# Compares frame_codec with plain Rust: `bench/frames.sh`, with `rt` and `rustc` on the path.
. "$(dirname "$0")/compare.sh"
compare frames frame_codec_c 'frame_codec'
