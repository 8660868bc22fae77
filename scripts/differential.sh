#!/usr/bin/env bash
# Compares the static library with the independent Rust implementation; the last lines count what was compared.
# Usage: scripts/differential.sh [SEED [SCALE]]   one seed and scale give one run; a larger scale compares more
set -euo pipefail
cd "$(dirname "$0")/.."

scripts/library.sh

export CARGO_TARGET_DIR=$PWD/target/cargo
(
    cd rust
    cargo test --quiet --offline --locked --profile compare --package compare --test known --test season --test season_folder
    cargo build --quiet --offline --locked --profile compare --package compare --bin differential
)
exec target/cargo/compare/differential "${1:-1}" "${2:-100}"
