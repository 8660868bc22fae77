#!/usr/bin/env bash
# Measures the folder beside the report's method, and finding beside unrolling, prints the times and ratios and writes
# docs/BENCHMARK.md and docs/benchmark.svg. CC names the C compiler.
# Usage: scripts/benchmark.sh [finding]   finding: only prints finding beside unrolling, in some seconds, and writes no page
set -euo pipefail
cd "$(dirname "$0")/.."
if [ $# -gt 1 ] || [ "${1:-finding}" != finding ]; then
    echo "usage: scripts/benchmark.sh [finding]" >&2
    exit 2
fi

scripts/library.sh
scripts/figure1.sh

export CARGO_TARGET_DIR=$PWD/target/cargo
(cd rust && cargo build --quiet --offline --locked --release --package compare --features benchmark --bin benchmark)

if [ $# -eq 1 ]; then
    exec target/cargo/release/benchmark finding
fi

# What the program cannot know: how each code was compiled, and how many of its instructions name a vector register of 16, 32
# and 64 bytes.
codes=target/benchmark/codes.txt
code() { # NAME COMPILER FLAGS [OBJECT]
    local counts=() text register
    if [ $# -eq 4 ]; then
        text=$(objdump -d "$4")
        for register in xmm ymm zmm; do
            counts+=("$(grep -c "%$register" <<<"$text" || true)")
        done
    fi
    echo "$1|$2|$3|${counts[*]}"
}
cc=$("${CC:-cc}" --version | head -n 1)
{
    # The compiler behind `rt lib` is run at -O3, for no processor in particular: vectors are those of SSE2.
    code folder "\`rt lib\`, $(rt version)" "-O3, baseline x86-64 (SSE2)" target/lib/librunfold.a
    for name in plain transposed blocked; do
        code $name "$cc" "$(cat target/benchmark/$name.flags)" target/benchmark/$name.o
    done
    code "Rust around plain, transposed, blocked" "$(rustc --version)" "release profile, opt-level 3, baseline x86-64"
} >"$codes"

exec target/cargo/release/benchmark docs/BENCHMARK.md docs/benchmark.svg "$(date +%F)" "$codes"
