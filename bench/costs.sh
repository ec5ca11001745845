#!/bin/sh
# Counts the instructions of whole runs, by 'valgrind --tool=callgrind', start included, on a script of n lines or objects
# and on one four times as large:
#   bench/costs.sh [CASE]..   those cases, or all:
#     keys        lines on 5,000 keys: ordered set, ordered bag, set, bag
#     line        lines on a queue
#     generated   generated commands of both programs
#     nexts       'first' and then 'next' through a set, and through a bag
#     equals      one key again and again in a bag, and what is beside it
#     walk        a walk along two ordered sets: what the walk alone takes for each object that it shows
#     halves      blocks in a best, a debug and a profile region, every second one freed
#     fills       blocks of 1,000 and of 16 bytes in a best region whose one segment gets longer, and in one that is lent
#                 segment after segment; and in a pool and a last region whose segment gets longer
#     mixed       blocks of forty sites in a best, a debug and a profile region, freed in mixed order
#     watches     blocks in a debug region, watched and resized
#     trace       what the C compiler allocates for a program of bench/, recorded by tools/record, in a best, a debug and a
#                 profile region
# Each line tells what a line, object or block takes, and the last word how many times more the larger run takes than the
# smaller one. The scripts are those of bench/script.sh. BIN names the folder of the programs, bin where it isn't told. Run by
# hand at the top of the repository. It needs awk, valgrind and, for 'trace', cc.
set -eu
bin=${BIN-bin}

# Sets $count to the instructions of a run; its words are those of the program, its input is $dir/script.
count() {
    valgrind --tool=callgrind --callgrind-out-file=/dev/null "$@" < "$dir/script" 2> "$dir/log" > /dev/null
    count=$(awk '/Collected/ { print $4 }' "$dir/log")
}

# tell NAME N FIRST SECOND: of runs of n and of 4 n.
tell() {
    awk -v name="$1" -v n="$2" -v first="$3" -v second="$4" 'BEGIN {
        printf "%s: %d and %d for each of %d and %d, times %.2f\n", name, first / n, second / n / 4, n, 4 * n, second / first }'
}

# both NAME N PROGRAM WORD..: runs the program on the script of these words, in which N stands for n, at n and 4 n.
both() {
    name=$1
    n=$2
    program=$3
    shift 3
    of=
    for size in "$n" "$((4 * n))"; do
        # shellcheck disable=SC2046
        bench/script.sh $(echo "$*" | sed "s/\\bN\\b/$size/") > "$dir/script"
        count "$bin/$program"
        of="$of $count"
    done
    # shellcheck disable=SC2086
    tell "$name" "$n" $of
}

keys() {
    for method in oset obag set bag; do both "keys, $method" 50000 dtrun keys "$method" N 5000; done
}

line() { both 'line' 50000 dtrun line N; }

generated() {
    : > "$dir/script"
    for program in vmreplay dtrun; do
        count "$bin/$program" --gen 100000 --seed 7
        first=$count
        count "$bin/$program" --gen 400000 --seed 7
        tell "generated, $program" 100000 "$first" "$count"
    done
}

nexts() {
    for method in set bag; do both "nexts, $method" 10000 dtrun nexts "$method" N; done
}

equals() { both 'equals' 10000 dtrun equals N; }

walk() {
    of=
    for n in 10000 40000; do
        bench/script.sh layers "$n" > "$dir/script"
        count "$bin/dtrun"
        without=$count
        bench/script.sh layers "$n" walk > "$dir/script"
        count "$bin/dtrun"
        of="$of $((count - without))"
    done
    # shellcheck disable=SC2086
    tell 'walk, each object shown' 20000 $of
}

halves() {
    for method in best debug profile; do both "halves, $method" 40000 vmreplay halves "$method" N; done
}

fills() {
    for place in 17 9; do
        both "fills of 1,000 bytes over $place, best" 8000 vmreplay fills best "$place" 1000 N
        both "fills of 16 bytes over $place, best" 40000 vmreplay fills best "$place" 16 N
    done
    for method in pool last; do both "fills of 1,000 bytes over 17, $method" 8000 vmreplay fills "$method" 17 1000 N; done
}

mixed() {
    for method in best debug profile; do both "mixed, $method" 10000 vmreplay mixed "$method" N; done
}

watches() { both 'watches' 3000 vmreplay watches N; }

trace() {
    cc -E -o "$dir/calls.i" bench/calls.c
    tools/record -q "$dir/trace" -- "$(cc -print-prog-name=cc1)" -fpreprocessed -quiet -O1 -o "$dir/calls.s" "$dir/calls.i" \
        > "$dir/log" 2>&1 || { cat "$dir/log"; exit 1; }
    lines=$(grep -cv '^#' "$dir/trace")
    for method in best debug profile; do
        sed "s/^open \\([^ ]*\\) [a-z]* /open \\1 $method /" "$dir/trace" > "$dir/script"
        count "$bin/vmreplay"
        awk -v method="$method" -v lines="$lines" -v count="$count" 'BEGIN {
            printf "trace, %s: %d a line of %d\n", method, count / lines, lines }'
    done
}

cases='keys line generated nexts equals walk halves fills mixed watches trace'
for case in "$@"; do
    case " $cases " in
        *" $case "*) ;;
        *) echo "usage: bench/costs.sh [CASE].., of $cases" >&2; exit 2 ;;
    esac
done
test "$bin" != bin || make all > /dev/null
dir=$(mktemp -d)
trap 'rm -rf "$dir"' EXIT
for case in ${*:-$cases}; do "$case"; done
