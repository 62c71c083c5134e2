#!/usr/bin/env bash
# tests/long-run.sh [CALLS [SEED]]: runs the console and the second implementation over random lists of so many
# calls, 20,000,000 unless told otherwise, and compares every answer.
set -eu
cd "$(dirname "$0")/.."
lessons/build
export CARGO_NET_OFFLINE=true CARGO_TARGET_DIR=$PWD/tests/target
cargo build --quiet --release --manifest-path tests/Cargo.toml -p compare -p second
exec tests/target/release/compare target/bin/console tests/target/release/second \
    --random "${1:-20000000}" ${2:+--seed "$2"}
