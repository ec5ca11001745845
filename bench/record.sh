#!/bin/sh
# Times a program that allocates and frees: alone, under tools/record, under heaptrack, and under valgrind's DHAT, where
# these are there:
#   bench/record.sh [RUNS]
# Of 1,000,000 calls in one thread and 1,600,000 in eight it prints the least seconds of so many runs, five where none is
# told. The runs take turns, so that other work on the machine meets all alike. Run by hand at the top of the repository.
# It needs cc and GNU time.
set -eu
runs=${1:-5}
dir=$(mktemp -d)
trap 'rm -rf "$dir"' EXIT
cc -O2 -fno-builtin -o "$dir/calls" bench/calls.c -lpthread
tools/record "$dir/script" -- sh -c :

# run NAME COMMAND..: notes the seconds.
run() {
    name=$1
    shift
    env time -f '%e' -o "$dir/time" "$@" > "$dir/out" 2>&1 || { cat "$dir/out"; exit 1; }
    cat "$dir/time" >> "$dir/$name"
    rm -f "$dir"/calls.heap*
}

for words in '1 1000000' '8 1600000'; do
    rm -f "$dir"/of.*
    n=0
    while [ "$n" -lt "$runs" ]; do
        n=$((n + 1))
        # shellcheck disable=SC2086
        {
            run of.alone "$dir/calls" $words
            run of.record tools/record "$dir/script" -- "$dir/calls" $words
            run of.record-n tools/record -n "$dir/script" -- "$dir/calls" $words
            if command -v heaptrack > /dev/null; then run of.heaptrack heaptrack -o "$dir/calls.heap" "$dir/calls" $words; fi
            if [ "$n" = 1 ] && command -v valgrind > /dev/null; then
                run of.dhat valgrind --tool=dhat --dhat-out-file="$dir/dhat" "$dir/calls" $words
            fi
        }
    done
    echo "${words#* } calls, threads: ${words% *}; lines in the script: $(wc -l < "$dir/script")"
    for file in "$dir"/of.*; do
        echo "  ${file##*/of.}: $(sort -n "$file" | head -n 1) seconds"
    done
done
