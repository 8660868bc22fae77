#!/usr/bin/env bash
# Measures the stack that each exported function takes, and sees that RUNFOLD_STACK of the header is enough. CC names the C
# compiler.
set -euo pipefail
cd "$(dirname "$0")/.."

scripts/library.sh

mkdir -p target/c
# Bound lazily and without optimizing, so that no loop of the program becomes a call of memset: the first call of the folder is
# then the one that binds it, on the stack that is measured.
"${CC:-cc}" -std=c11 -Wall -Wextra -Wpedantic -Wconversion -Wsign-conversion -Wshadow -Werror -O0 -Iinclude tests/c/stack.c \
    target/lib/librunfold.a -Wl,-z,lazy -o target/c/stack
exec target/c/stack
