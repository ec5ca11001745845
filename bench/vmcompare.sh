#!/bin/sh
# Measures vmcompare:
#   bench/vmcompare.sh instructions  the instructions of a run of a trace, and of vmreplay's of the same commands in a best
#                                    region, by 'valgrind --tool=callgrind', start included: of a trace recorded of the C
#                                    compiler, and of one recorded of Python, of some 860,000 lines. The status is 1 where
#                                    vmcompare takes more than four times as many
#   bench/vmcompare.sh memory        the memory that it takes at most: on traces of one live block and of 10,000, each of
#                                    20,000 and of 2,000,000 lines
# BIN names the folder of the programs, bin where it isn't told. Run by hand at the top of the repository. It needs awk, and
# valgrind, cc and python3, or GNU time.
set -eu
bin=${BIN-bin}

# Sets $count to the instructions of a run; its words are those of the program, its input is the file $given.
count() {
    valgrind --tool=callgrind --callgrind-out-file=/dev/null "$@" < "$given" 2> "$dir/log" > "$dir/out"
    count=$(awk '/Collected/ { print $4 }' "$dir/log")
}

# beside NAME TRACE: both programs on a trace.
beside() {
    lines=$(grep -cv '^#' "$2")
    given=$2
    count "$bin/vmcompare"
    test -s "$dir/out" || { echo "$1: vmcompare doesn't run the trace to its end"; exit 1; }
    compare=$count
    given=$dir/script
    region=$(awk '$1 != "#" { print $2; exit }' "$2")
    { echo "open $region best 1"; cat "$2"; } > "$given"
    count "$bin/vmreplay"
    awk -v name="$1" -v lines="$lines" -v compare="$compare" -v replay="$count" 'BEGIN {
        printf "%s, %d lines: %d instructions a line of vmcompare, %d of vmreplay, times %.2f\n", name, lines, compare / lines, replay / lines, compare / replay
        exit compare > 4 * replay }'
}

instructions() {
    cc -E -o "$dir/calls.i" bench/calls.c
    tools/record -t "$dir/trace" -- "$(cc -print-prog-name=cc1)" -fpreprocessed -quiet -O1 -o "$dir/calls.s" "$dir/calls.i" \
        > "$dir/log" 2>&1 || { cat "$dir/log"; exit 1; }
    beside 'the C compiler' "$dir/trace"
    python=$(python3 -c 'import sys; print(sys.executable)')
    PYTHONMALLOC=malloc tools/record -t "$dir/trace" -- "$python" -S -c '
for i in range(1050):
    for j in range(200):
        (i, j), str(j)' > "$dir/log" 2>&1 || { cat "$dir/log"; exit 1; }
    beside 'Python' "$dir/trace"
}

# so many blocks live, and so many lines
blocks() {
    awk -v live="$1" -v lines="$2" 'BEGIN {
        for (i = 1; i <= live; i++) print "alloc t b" i " 100"
        for (n = live; n + 2 <= lines; n += 2) {
            print "free t b" live
            print "alloc t b" live " 100"
        }
    }'
}

memory() {
    for live in 1 10000; do
        for lines in 20000 2000000; do
            blocks "$live" "$lines" > "$dir/trace"
            env time -f "$live live, $lines lines: %e seconds, %M KiB" "$bin/vmcompare" < "$dir/trace" > "$dir/out"
        done
    done
}

case "${1-}" in
    instructions | memory) ;;
    *) echo "usage: bench/vmcompare.sh instructions|memory" >&2; exit 2 ;;
esac
test "$bin" != bin || make all > /dev/null
dir=$(mktemp -d)
trap 'rm -rf "$dir"' EXIT
"$1"
