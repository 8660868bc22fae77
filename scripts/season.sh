#!/usr/bin/env bash
# Measures the season folder beside its own method in plain Rust and beside the folder, and prints how and a table in Markdown:
# the time a step for runs of 1,024 to 65,535 steps, and the parts. CC names the C compiler.
set -euo pipefail
cd "$(dirname "$0")/.."

scripts/library.sh >&2
# The clock that the other benchmarks take is in there.
scripts/figure1.sh >&2

export CARGO_TARGET_DIR=$PWD/target/cargo
(cd rust && cargo build --quiet --offline --locked --release --package compare --features benchmark --bin benchmark)
exec target/cargo/release/benchmark season
