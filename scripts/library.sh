#!/usr/bin/env bash
# Proves and builds the static library, target/lib/librunfold.a. The prover's words are printed where it fails, and are in
# target/staticlib.log.
set -euo pipefail
cd "$(dirname "$0")/.."

mkdir -p target/lib
if ! (cd crates/embed && rt lib) >target/staticlib.log 2>&1; then
    cat target/staticlib.log
    exit 1
fi
# The toolchain names the archive after its crate; a caller knows it by the name of the project.
cp crates/embed/out/libembed.a target/lib/librunfold.a
echo "built target/lib/librunfold.a"
