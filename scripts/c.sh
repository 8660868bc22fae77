#!/usr/bin/env bash
# Tests the library as a C or C++ program meets it: installs it in target/prefix, compiles the header, the examples and tests/c
# against that, runs them and compares what they print. CC and CXX name the compilers; where clang is there too, both are used.
set -euo pipefail
cd "$(dirname "$0")/.."

# By way of DESTDIR, so that what is installed is not where PREFIX says and has to be found all the same.
rm -rf target/prefix
DESTDIR=$PWD/target scripts/install.sh /prefix

packages=target/prefix/lib/pkgconfig
if command -v pkg-config >/dev/null; then
    version=$(PKG_CONFIG_PATH=$packages pkg-config --modversion runfold)
    read -ra flags <<<"$(PKG_CONFIG_PATH=$packages pkg-config --cflags runfold)"
    read -ra libs <<<"$(PKG_CONFIG_PATH=$packages pkg-config --libs runfold)"
else
    version=$(sed -n 's/^Version: //p' "$packages/runfold.pc")
    flags=(-Itarget/prefix/include)
    libs=(-Ltarget/prefix/lib -lrunfold)
fi
flags+=(-O2 -Wall -Wextra -Wpedantic -Wconversion -Wsign-conversion -Wshadow -Werror)
# What a program prints is compared with what it should.
folded=$'nodes 3, steps 3, depth 0\ncost 2\nfold 2000030001100121'
found=$'index of 3 entries\nnode 700: step 02 at offset 7\nnode 701: group 05 at offset 9\n'
found+='node 902: refused 16: position not below the node total'
texts=$version$'\n'$(sed -n 's/^| \([0-9]*\) | \([^|]*\) |.*/\1 \2/p' docs/REFUSALS.md | tr -d '`')

out=target/c
mkdir -p "$out"
prints() { # WANTED PROGRAM
    local printed
    if ! printed=$("$2") || [ "$printed" != "$1" ]; then
        diff <(echo "$1") <(echo "$printed") || true
        echo "$2 failed"
        exit 1
    fi
}
all_with() { # CC CXX
    for std in c99 c11 c17; do
        "$1" "-std=$std" "${flags[@]}" -c tests/c/header.c -o "$out/header.o"
    done
    for std in c++11 c++17 c++20; do
        "$2" "-std=$std" "${flags[@]}" -Wold-style-cast -x c++ -c tests/c/header.c -o "$out/header.o"
    done
    for name in texts null shape marks find short season; do
        "$1" -std=c11 "${flags[@]}" "tests/c/$name.c" "${libs[@]}" -o "$out/$name"
    done
    "$1" -std=c99 "${flags[@]}" examples/c/fold_aaa.c "${libs[@]}" -o "$out/fold_aaa_c"
    "$1" -std=c99 "${flags[@]}" examples/c/find_step.c "${libs[@]}" -o "$out/find_step"
    "$2" -std=c++17 "${flags[@]}" -Wold-style-cast examples/cpp/fold_aaa.cpp "${libs[@]}" -o "$out/fold_aaa_cpp"
    prints "" "$out/null"
    prints "" "$out/shape"
    prints "" "$out/marks"
    prints "" "$out/find"
    prints "" "$out/short"
    prints "" "$out/season"
    prints "$texts" "$out/texts"
    prints "$folded" "$out/fold_aaa_c"
    prints "$found" "$out/find_step"
    prints "$folded" "$out/fold_aaa_cpp"
    used+=" $1 $2"
}
used=
all_with "${CC:-cc}" "${CXX:-c++}"
if command -v clang >/dev/null && command -v clang++ >/dev/null; then
    all_with clang clang++
fi
passed="the header by itself, its texts, null pointers, steps, depth and cost, marks, index and finding, the short family,"
passed+=" seasons"
echo "passed: $passed, the version $version and the examples, with$used"
