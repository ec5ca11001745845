#!/bin/sh
# Puts the archive for C together: tools/archive.sh KIT FROM TO adds what the toolchain's kit has of the C library to FROM.
set -eu
dir=$(mktemp -d)
trap 'rm -rf "$dir"' EXIT
cp "$2" "$dir/libkolbista.a"
here=$(cd "$(dirname "$3")" && pwd)
cd "$dir"
"$1/toolchain/bin/llvm-ar" x "$1/c/liblibc_c.a"
"$1/toolchain/bin/llvm-ar" rs libkolbista.a ./*.o 2> /dev/null
cp libkolbista.a "$here/$(basename "$3")"
