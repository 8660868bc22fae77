#!/usr/bin/env bash
# Builds the static library and installs it for C and C++: PREFIX/include/runfold.h, PREFIX/lib/librunfold.a and
# PREFIX/lib/pkgconfig/runfold.pc.
# Usage: scripts/install.sh PREFIX   DESTDIR, where it is set, goes before PREFIX
set -euo pipefail
if [ $# -ne 1 ] || [ -z "$1" ]; then
    echo "usage: scripts/install.sh PREFIX   (DESTDIR, where it is set, goes before PREFIX)" >&2
    exit 2
fi
# A relative folder is meant from where the caller stands.
to=${DESTDIR:-}$1
case $to in
/*) ;;
*) to=$PWD/$to ;;
esac
cd "$(dirname "$0")/.."

scripts/library.sh

version=$(sed -n 's/^#define RUNFOLD_VERSION_\(MAJOR\|MINOR\|PATCH\) //p' include/runfold.h | paste -sd.)
install -d "$to/include" "$to/lib/pkgconfig"
install -m 644 include/runfold.h "$to/include"
install -m 644 target/lib/librunfold.a "$to/lib"
# The paths start from where the file itself is, so that the tree can be moved.
cat >"$to/lib/pkgconfig/runfold.pc" <<END
prefix=\${pcfiledir}/../..
includedir=\${prefix}/include
libdir=\${prefix}/lib

Name: runfold
Description: The cheapest fold of a run, proved
Version: $version
Cflags: -I\${includedir}
Libs: -L\${libdir} -lrunfold
END
echo "installed runfold $version in $to"
