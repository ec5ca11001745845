#!/bin/sh
# Lets each allocation of the sample runs of the programs fail in turn, and then each read and each write of a run of vmreplay
# and of dtrun whose script comes in two pieces. A run ends with the status that is due, with a front of the replies written and all memory
# freed, that of the segments with it: a segment that freed nothing when it is dropped would show here alone. No block begins
# elsewhere than at a multiple of 8, as a segment's words want it.
# Run by hand at the top of the repository. It needs cc.
set -eu
make all > /dev/null
dir=$(mktemp -d)
trap 'rm -rf "$dir"' EXIT
cc -shared -fPIC -O1 -o "$dir/fail.so" bench/fail_calls.c -ldl
mkfifo "$dir/pieces"

# Runs the program where the call of that number fails, and looks at all but its status.
run() {
    status=0
    env "$1=$2" LD_PRELOAD="$dir/fail.so" REPORT="$dir/report" "bin/$program" > "$dir/out" 2> "$dir/err" || status=$?
    read -r made held odd < "$dir/report"
    head -c "$(wc -c < "$dir/out")" "$sample/stdout" | cmp - "$dir/out"
    test "$held" = 0 && test "$odd" = 0 ||
        { echo "$program, $1=$2: $held not freed, $odd not at a multiple of 8"; exit 1; }
}

is_due() {
    test "$status" = "$3" || { echo "$program, $1=$2: status $status, not $3"; exit 1; }
}

# Nothing failed.
is_whole() {
    cmp "$dir/out" "$sample/stdout"
    test "$status" = 0 && test ! -s "$dir/err"
}

allocations() {
    run FAIL_AT 0 < "$sample/stdin"
    is_whole
    all=$made
    n=1
    while [ "$n" -le "$all" ]; do
        run FAIL_AT "$n" < "$sample/stdin"
        is_due FAIL_AT "$n" 5
        sort -u "$dir/err" >> "$dir/lines"
        n=$((n + 1))
    done
    echo "$program: $all allocations, each failed in turn: status 5, all freed"
}

# The second piece waits until the first was read.
pieces() {
    head -n 20 "$sample/stdin"
    sleep 0.2
    tail -n +21 "$sample/stdin"
}

# Each call of a kind in turn, up to the first that isn't made.
calls() {
    n=0
    status=$2
    while [ "$status" != 0 ]; do
        is_due "$1" "$n" "$2"
        n=$((n + 1))
        pieces > "$dir/pieces" &
        run "$1" "$n" < "$dir/pieces"
        wait
    done
    is_whole
    test "$n" -gt 2
    echo "$program: $((n - 1)) calls by $1, each failed in turn: status $2, all freed"
}

for program in vmreplay dtrun; do
    sample=crates/$program
    allocations
    calls FAIL_READ 3
    calls FAIL_WRITE 4
done
# It writes once, so that its reads and writes are not tried in turn.
program=vmcompare
sample=crates/$program
allocations
sort "$dir/lines" | uniq -c
