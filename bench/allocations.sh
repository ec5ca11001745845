#!/bin/sh
# Counts the allocations of two tests of best regions: one fills a region, and the other one besides frees blocks, resizes
# them in place and fills gaps, for which no allocation may come. Run by hand at the top of the repository. It needs cc.
set -eu
(cd crates/vc_region_tests && rt test > /dev/null)
dir=$(mktemp -d)
trap 'rm -rf "$dir"' EXIT
cc -shared -fPIC -O1 -o "$dir/fail.so" bench/fail_calls.c -ldl

count() {
    FAIL_AT=0 LD_PRELOAD="$dir/fail.so" REPORT="$dir/report" \
        crates/vc_region_tests/out/vc_region_tests_tests "best::filled::$1" > "$dir/out" || { cat "$dir/out"; exit 1; }
    read -r made held odd < "$dir/report"
    test "$held" = 0 && test "$odd" = 0
}

count gaps_alone
alone=$made
count gaps_filled
echo "$alone allocations alone, $made with gaps that are filled"
test "$made" = "$alone"
