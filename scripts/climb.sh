#!/usr/bin/env bash
# Looks for runs on which the folder takes the largest part of *blocked*'s time, and prints them with the list of found runs
# that stands in rust/compare/src/inputs.rs, to be pasted there.
# Usage: scripts/climb.sh [SECONDS [SEED]]   all prices together
set -euo pipefail
cd "$(dirname "$0")/.."

scripts/library.sh
scripts/figure1.sh

export CARGO_TARGET_DIR=$PWD/target/cargo
(cd rust && cargo build --quiet --offline --locked --release --package compare --features benchmark --bin climb)
exec target/cargo/release/climb "${1:-600}" "${2:-1}"
