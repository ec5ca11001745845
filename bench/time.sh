#!/bin/sh
# Times vmreplay or dtrun, and tells the memory that it took at most. The scripts are those of bench/script.sh:
#   bench/time.sh frees     20,000 lines
#   bench/time.sh resizes   200,000 lines
#   bench/time.sh segments  fifty runs of 1,026 lines
#   bench/time.sh one       2,000,000 lines
#   bench/time.sh live      4,000, 8,000 and 20,000 blocks of one byte in one region, each in a run of its own
#   bench/time.sh quiet     the same with --quiet
#   bench/time.sh mixed     10,000 and 40,000 blocks of forty sites in a best, a debug and a profile region
#   bench/time.sh watches   3,000, 12,000 and 48,000 watched blocks, each of which is resized
#   bench/time.sh turns     dtrun: 100,000 objects in a dictionary, which is turned to one method and then to another: the
#                           longest run and the mean of those of all 42 pairs, and a run that turns it to none
#   bench/time.sh puts      dtrun --quiet: 2,000, 4,000, 8,000 and 16,000 objects are put into a queue and taken out
# Run by hand at the top of the repository. It needs awk and GNU time.
set -eu

# So many runs of one script, whose words follow.
run() {
    runs=$1
    shift
    bench/script.sh "$@" > "$script"
    echo "$*: $(wc -l < "$script") lines"
    env time -f '%e seconds, %M KiB' \
        sh -c 'for i in $(seq "$2"); do bin/"$4" $3 < "$1" > /dev/null; done' sh "$script" "$runs" "$words" "$program"
}

# The runs of each pair of methods.
turns() {
    bench/script.sh turns 100000 queue queue > "$script"
    env time -f 'none: %e seconds, %M KiB' bin/dtrun < "$script" > /dev/null
    for old in list stack queue set bag oset obag; do
        for new in list stack queue set bag oset obag; do
            test "$old" = "$new" && continue
            bench/script.sh turns 100000 "$old" "$new" > "$script"
            env time -f "%e $old $new" bin/dtrun < "$script" 2>&1 > /dev/null
        done
    done | awk '
        { sum += $1; if ($1 > most) { most = $1; pair = $2 " " $3 } }
        END { print "longest: " most " seconds, " pair "; mean: " sum / NR " seconds" }'
}

case "${1-}" in
    turns) ;;
    frees | resizes | segments | one | live | quiet | mixed | watches | puts) ;;
    *) echo "usage: bench/time.sh frees|resizes|segments|one|live|quiet|mixed|watches|puts|turns" >&2; exit 2 ;;
esac
make all > /dev/null
script=$(mktemp)
trap 'rm -f "$script"' EXIT
program=vmreplay
words=
case "$1" in
    quiet) words=--quiet ;;
    puts) program=dtrun words=--quiet ;;
esac
case "$1" in
    turns) turns ;;
    segments) run 50 segments ;;
    puts) for objects in 2000 4000 8000 16000; do run 1 puts "$objects"; done ;;
    mixed) for method in best debug profile; do for blocks in 10000 40000; do run 1 mixed "$method" "$blocks"; done; done ;;
    watches) for blocks in 3000 12000 48000; do run 1 watches "$blocks"; done ;;
    live | quiet) for blocks in 4000 8000 20000; do run 1 live "$blocks"; done ;;
    *) run 1 "$1" ;;
esac
