#!/bin/sh
# Tries the further must-fail edits of a crate, which the gate leaves to be run by hand: bench/edits.sh NAME. They lie in
# bench/edits/NAME. It works on a copy and leaves the tree as it is.
set -eu
cd "$(dirname "$0")/.."
if [ $# -ne 1 ]; then
    echo "usage: bench/edits.sh NAME, a crate that has edits in bench/edits: $(echo $(ls bench/edits))" >&2
    exit 2
fi
name=$1
case $name in
    '' | .* | */*) crate=no ;;
    *) crate=$name ;;
esac
if [ ! -d "crates/$crate" ]; then
    echo "bench/edits.sh: there is no crate $name" >&2
    exit 2
fi
if [ ! -d "bench/edits/$name" ]; then
    echo "bench/edits.sh: $name has no edits in bench/edits" >&2
    exit 2
fi
dir=$(mktemp -d)
trap 'rm -rf "$dir"' EXIT
tar --exclude=out -cf - crates crates.txt HANDLES | tar -xf - -C "$dir"
mkdir -p "$dir/crates/$name/must-fail"
rm -f "$dir/crates/$name/must-fail/"*.edit
cp "bench/edits/$name/"*.edit "$dir/crates/$name/must-fail/"
cd "$dir"
rt must-fail "$name"
