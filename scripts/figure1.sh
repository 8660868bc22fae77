#!/usr/bin/env bash
# Compiles the report's method in C for the benchmark and the climber, target/benchmark/libfigure1.a. CC names the C compiler.
set -euo pipefail
cd "$(dirname "$0")/.."

cc=${CC:-cc}
out=target/benchmark
mkdir -p "$out"
compile() { # NAME FLAGS..
    local name=$1
    shift
    "$cc" -std=c11 -Wall -Wextra -Werror "$@" -c "rust/compare/figure1/$name.c" -o "$out/$name.o"
    # For the benchmark's page.
    echo "$*" >"$out/$name.flags"
}
compile plain -O3
compile transposed -O3 -march=native -mprefer-vector-width=512
compile blocked -O3 -march=native -mprefer-vector-width=512
rm -f "$out/libfigure1.a"
ar rcs "$out/libfigure1.a" "$out/plain.o" "$out/transposed.o" "$out/blocked.o"
