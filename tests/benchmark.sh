#!/usr/bin/env bash
# The benchmark: calls a second of the proved library and of a baseline in Rust, over the same lists,
# with their ratios, all measured in this run. It is no part of the gate. docs/PERFORMANCE.md says
# how to read what it prints. The word frames as the first argument times the frames alone; the next
# is the number of calls in a list.
# It needs the Rattle kit (rt), gcc and cargo, and uses no network.
set -eu
cd "$(dirname "$0")/.."

export CARGO_NET_OFFLINE=true
export CARGO_TARGET_DIR=$PWD/tests/target

lessons/build speed
echo 'building the baseline ..' >&2
cargo build --quiet --release --manifest-path tests/Cargo.toml -p baseline
exec tests/target/release/speed target/bin/speed "$@"
