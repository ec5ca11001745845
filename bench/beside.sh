#!/bin/sh
# Counts the instructions of a call of kb_run, and those of the same script by Graphviz's libcdt, for each line of a
# script of 100,000 lines on a dictionary of each method, by 'valgrind --tool=callgrind'. Both read the script from memory,
# and put the replies into memory. In a set or bag, in order or not, 20,000 keys are inserted, deleted and looked for; of a
# stack or queue the first object is taken out again. ARCHIVE names the archive for C, bin/libkolbista.a where it isn't told.
# Run by hand at the top of the repository. It needs awk, cc, pkg-config, valgrind and libcdt with its header.
set -eu
archive=${ARCHIVE-bin/libkolbista.a}
dir=$(mktemp -d)
trap 'rm -rf "$dir"' EXIT
# shellcheck disable=SC2046
cc -O2 -I include -Wl,--wrap=malloc,--wrap=realloc,--wrap=free -o "$dir/beside" tools/tests/beside.c "$archive" \
    $(pkg-config --cflags --libs libcdt)

# count FUNCTION METHOD
count() {
    valgrind --tool=callgrind --callgrind-out-file=/dev/null --toggle-collect="$1" \
        "$dir/beside" "$2" 100000 20000 1 2>&1 > /dev/null | awk '/Collected/ { print $4 }'
}

echo '| method | kb_run | libcdt | times |'
echo '|---|---|---|---|'
for method in set bag oset obag stack queue; do
    awk -v method="$method" -v ours="$(count kb_run $method)" -v theirs="$(count by_libcdt $method)" 'BEGIN {
        printf "| %s | %d | %d | %.2f |\n", method, ours / 100000, theirs / 100000, ours / theirs }'
done
