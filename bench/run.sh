#!/bin/sh
# Measures `check_type` of the Rust and of the proved checker in one process on
# the same plans. From the top, with `--quick` for fewer turns:
#     tools/library.sh && bench/run.sh
# Takes what `reference` takes: KIRVOGHUS_LIB names the library and KIRVOGHUS_RUST
# the folder of the Rust files, from that folder. The anchor is compiled by CC or
# `cc`, or left out. Status 0 unless answers differ, whatever targets are met.
cd "$(dirname "$0")" || exit 2
cargo build --quiet --offline --release || exit 2
exec target/release/bench "$@"
