#!/usr/bin/env bash
# Checks the Rust side: its version beside the C header's, layout, lints, tests (unit, documentation, known folds) and
# documentation. The last line says what passed; scripts/differential.sh compares far more.
set -euo pipefail
cd "$(dirname "$0")/.."

scripts/library.sh

number() { # MAJOR, MINOR or PATCH in the header
    sed -nE "s/^#define[[:space:]]+RUNFOLD_VERSION_$1[[:space:]]+([0-9]+).*/\1/p" include/runfold.h
}
header=$(number MAJOR).$(number MINOR).$(number PATCH)
wrapper=$(sed -nE 's/^version = "(.*)"$/\1/p' rust/runfold/Cargo.toml)
if [ "$wrapper" != "$header" ]; then
    echo "versions differ: $wrapper in rust/runfold/Cargo.toml, $header in include/runfold.h" >&2
    exit 1
fi

export CARGO_TARGET_DIR=$PWD/target/cargo
cd rust
cargo fmt --all --check
cargo clippy --quiet --offline --locked --workspace --all-targets --all-features -- -D warnings
log=../target/rust-tests.log
if ! cargo test --quiet --offline --locked --workspace >"$log" 2>&1; then
    cat "$log"
    exit 1
fi
tests=$(awk '/^test result: ok/ { n += $4 } END { print n }' "$log")
RUSTDOCFLAGS="-D warnings" cargo doc --quiet --offline --locked --workspace --no-deps --all-features
echo "rust passed: layout, lints, $tests tests and documentation; version $wrapper as in include/runfold.h"
