#!/usr/bin/env bash
# Measures the folder beside that of another archive of the library in one program: for each family of runs of the benchmark at
# each prices the two times in microseconds and the part that this one takes of the other's, the highest parts first. No label is
# marked. An archive whose folder takes other arguments, as before labels could be marked, needs its prototype in
# tests/c/beside.c. CC names the C compiler.
# Usage: scripts/beside.sh ARCHIVE [MILLISECONDS]   the least time for a run at one prices, of twelve such, 20 by default
set -euo pipefail
if [ $# -lt 1 ] || [ $# -gt 2 ]; then
    echo "usage: scripts/beside.sh ARCHIVE [MILLISECONDS]" >&2
    exit 2
fi
archive=$(realpath "$1")
cd "$(dirname "$0")/.."

scripts/library.sh
export CARGO_TARGET_DIR=$PWD/target/cargo
(cd rust && cargo build --quiet --offline --locked --release --package compare --bin inputs)

cc=${CC:-cc}
out=target/beside
rm -rf "$out"
mkdir -p "$out"
target/cargo/release/inputs >"$out/inputs"
"$cc" -std=c11 -Wall -Wextra -Wpedantic -Wconversion -Wsign-conversion -Wshadow -Werror -O2 -Iinclude -c tests/c/beside.c \
    -o "$out/beside.o"
# The folder of an archive under another name, and nothing else of it.
rename() { # ARCHIVE NAME
    ld -r --whole-archive "$1" -o "$out/whole.o"
    objcopy --redefine-sym runfold_fold="$2" --keep-global-symbol="$2" "$out/whole.o" "$out/$2.o"
}
rename "$archive" other_fold
rename target/lib/librunfold.a this_fold

# Where a short loop lies in a line of the cache can be worth two fifths of its time. So both are measured at each of four places
# in a line of 64 bytes.
places="0 16 32 48"
for place in $places; do
    printf '.text\n.p2align 6\n.skip %d\n.section .note.GNU-stack,"",@progbits\n' $((64 + place)) >"$out/pad.s"
    "$cc" -c "$out/pad.s" -o "$out/pad.o"
    "$cc" "$out/beside.o" "$out/pad.o" "$out/other_fold.o" "$out/pad.o" "$out/this_fold.o" -o "$out/beside_$place"
done
# A machine that is shared is slow for a while, now and then. So each is measured three times, with the others between.
for round in 1 2 3; do
    for place in $places; do
        "$out/beside_$place" "${2:-20}" <"$out/inputs" >"$out/times_${place}_$round" 2>"$out/said" || {
            cat "$out/said" >&2
            exit 1
        }
    done
done
cat "$out/said"

# The lowest of the times of each run, and the mean over the runs of a family.
awk -F '\t' '
    {
        family[FNR] = $1 ", " $2
        if (FNR == NR || $3 + 0 < other[FNR]) other[FNR] = $3 + 0
        if (FNR == NR || $4 + 0 < this[FNR]) this[FNR] = $4 + 0
    }
    END {
        for (run in family) {
            key = family[run]
            runs[key]++
            others[key] += other[run]
            these[key] += this[run]
        }
        for (key in runs)
            printf "%.3f  %9.1f  %9.1f  %s\n", these[key] / others[key], others[key] / runs[key] / 1e3, these[key] / runs[key] / 1e3, key
    }' "$out"/times_* | sort -rn | sed '1i part      other       this  family, prices'
