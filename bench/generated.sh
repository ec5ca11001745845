#!/bin/sh
# Times both programs on generated scripts of seed 7, and tells the memory that they took at most:
#   bench/generated.sh time           100,000 and 1,000,000 commands, by GNU time, with the first three lines of each
#   bench/generated.sh instructions   100,000 commands, by 'valgrind --tool=callgrind', and how many that is for each
# Run by hand at the top of the repository. It needs awk, and GNU time or valgrind.
set -eu

runs() {
    for program in vmreplay dtrun; do
        for n in 100000 1000000; do
            env time -f "$program --gen $n --seed 7: %e seconds, %M KiB" "bin/$program" --gen "$n" --seed 7 > "$dir/out"
            head -n 3 "$dir/out" | paste -s -d ' ' -
        done
    done
}

instructions() {
    for program in vmreplay dtrun; do
        valgrind --tool=callgrind --callgrind-out-file=/dev/null "bin/$program" --gen 100000 --seed 7 2> "$dir/log" > /dev/null
        awk -v program="$program" '/Collected/ { print program ": " $4 " instructions, " int($4 / 100000) " a command" }' "$dir/log"
    done
}

case "${1-}" in
    time | instructions) ;;
    *) echo "usage: bench/generated.sh time|instructions" >&2; exit 2 ;;
esac
make all > /dev/null
dir=$(mktemp -d)
trap 'rm -rf "$dir"' EXIT
case "$1" in
    time) runs ;;
    instructions) instructions ;;
esac
