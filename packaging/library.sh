#!/usr/bin/env bash
# Builds the static and the shared library from what 'rt lib' made: out/lib/libsdtool.a and out/lib/libsdtool.so.
# The toolchain's archive that calls malloc and free goes into both; only symbols that begin with sdtool_ can be linked to.
set -euo pipefail
cd "$(dirname "$0")/.."
cc=${CC:-cc}
major=0
proved=$PWD/crates/sdtool_c/out/libsdtool_c.a
support=$(dirname "$(dirname "$(readlink -f "$(command -v rt)")")")/c/liblibc_c.a
work=$(mktemp -d)
trap 'rm -rf "$work"' EXIT
mkdir -p out/lib
packaging/describe.sh include/sdtool.h "$work/calls.o"
# All is bound when it is loaded, and what was bound is read-only from then on.
"$cc" -shared -Wl,-soname,libsdtool.so.$major -Wl,--version-script=packaging/library.map -Wl,--no-undefined \
    -Wl,-z,relro,-z,now -Wl,--whole-archive "$proved" -Wl,--no-whole-archive "$support" "$work/calls.o" \
    -o "$work/libsdtool.so.$major"
strip --strip-unneeded "$work/libsdtool.so.$major"
# One object, so that the archive's other symbols can be made local.
ld -r --whole-archive "$proved" --no-whole-archive "$support" -o "$work/sdtool.o"
objcopy --wildcard --keep-global-symbol='sdtool_*' "$work/sdtool.o"
ar rcsD "$work/libsdtool.a" "$work/sdtool.o"
mv "$work/libsdtool.so.$major" "$work/libsdtool.a" out/lib
ln -sfn libsdtool.so.$major out/lib/libsdtool.so
