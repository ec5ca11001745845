#!/bin/sh
# Lets each allocation of a test fail in turn, and looks whether a lend that finds no memory is made again: the second
# lend would be refused, and the test takes no refusal. Run by hand at the top of the repository. It needs cc.
set -eu
(cd crates/vc_tests && rt test > /dev/null)
dir=$(mktemp -d)
trap 'rm -rf "$dir"' EXIT
cc -shared -fPIC -O1 -o "$dir/fail.so" bench/fail_calls.c -ldl

run() {
    FAIL_AT=$1 LD_PRELOAD="$dir/fail.so" REPORT="$dir/report" \
        crates/vc_tests/out/vc_tests_tests hostile::lends::lend_once > "$dir/out" || { cat "$dir/out"; exit 1; }
    read -r made held odd < "$dir/report"
}

run 0
all=$made
test "$held" = 0 && test "$odd" = 0
n=1
while [ "$n" -le "$all" ]; do
    run "$n"
    test "$held" = 0 || { echo "allocation $n: $held not freed"; exit 1; }
    n=$((n + 1))
done
echo "$all allocations, each failed in turn: no lend is made again, all freed"
