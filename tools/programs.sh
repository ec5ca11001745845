#!/bin/sh
# Records real programs, runs what was recorded, and prints the rows of a table of docs/programs.md:
#   tools/programs.sh [PROGRAM]        scripts of three programs, by bin/vmreplay where no program is named
#   tools/programs.sh ways [PROGRAM]   traces of four programs, by bin/vmcompare
# It needs dot (graphviz), gcc and python3, and perl for traces. A script or trace that doesn't run with status 0 to its last
# line is told, and the status is 1.
set -u
here=$(cd "$(dirname "$0")" && pwd) || exit 1
if [ "${1-}" = ways ]; then
    ways=yes
    program=${2:-$here/../bin/vmcompare}
else
    ways=
    program=${1:-$here/../bin/vmreplay}
fi
if [ ! -x "$program" ]; then
    echo "tools/programs.sh: no program $program: run make first" >&2
    exit 1
fi
program=$(cd "$(dirname "$program")" && pwd)/$(basename "$program")
dir=$(mktemp -d) || exit 1
trap 'rm -rf "$dir"' EXIT
cd "$dir" || exit 1
failed=0

commas() {
    echo "$1" | awk '{ while (length($1) > 3) { out = "," substr($1, length($1) - 2) out; $1 = substr($1, 1, length($1) - 3) } print $1 out }'
}

# The row of one script: its last line is stat, so the number of its replies tells whether all lines were run.
row() {
    echo 'stat r' >> "$2"
    lines=$(wc -l < "$2")
    comments=$(grep -c '^#' "$2")
    "$program" < "$2" > replies 2> fault
    status=$?
    if [ "$status" -ne 0 ] || [ -s fault ] || [ "$(wc -l < replies)" -ne $((lines - comments)) ] || grep -q refused replies; then
        echo "FAILED: $1, status $status: $(cat fault)"
        failed=1
        return
    fi
    echo "| $1 | $(commas "$((lines))") | \`$(tail -n 1 replies)\` |"
}

# The script of the program with that name, of those that a program and what it started wrote.
of() {
    grep -l "^# $1, process" "$2" "$2".*
}

# A graph of so many nodes.
graph() {
    awk -v n="$1" 'BEGIN {
        print "digraph g {"
        for (i = 1; i < n; i++) {
            print int(i / 3) " -> " i
            if (i % 10 == 0) print i " -> " i * 7 % n
        }
        print "}"
    }' > graph.dot
}

# The row of one trace: what is wasted where most bytes are live.
row_of_ways() {
    if ! "$program" < "$2" > told 2> fault; then
        echo "FAILED: $1: $(cat fault)"
        failed=1
        return
    fi
    # shellcheck disable=SC2046
    set -- "$1" "$2" $(awk '{ print $NF }' told)
    echo "| $1 | $(commas "$(($(wc -l < "$2")))") | $(commas "$3") | $(commas "$4") | $(commas "$5") | $(commas "$6") |"
}

if [ "$ways" ]; then
    gcc -E -o calls.i "$here/../bench/calls.c" &&
        "$here/record" -t cc1.trace -- "$(gcc -print-prog-name=cc1)" -fpreprocessed -quiet -O1 -o calls.s calls.i || exit 1
    # shellcheck disable=SC2016
    "$here/record" -t perl.trace -- \
        perl -e '@w = map { chr(97 + $_ % 26) x (1 + $_ % 40) } 1 .. 3000; $n{$_}++ for @w; print scalar(keys %n), "\n"' > out || exit 1
    graph 200
    "$here/record" -t dot.trace -- dot -Tsvg graph.dot -o graph.svg || exit 1
    python=$(python3 -c 'import sys; print(sys.executable)') || exit 1
    PYTHONMALLOC=malloc "$here/record" -t python.trace -- \
        "$python" -S -c 'lists = {str(i): [i] for i in range(2000)}' || exit 1
    echo '| program | lines | most bytes live | wasted then: `best` | `last` | `pool` |'
    echo '|---|---|---|---|---|---|'
    row_of_ways "\`cc1\`, which compiles \`bench/calls.c\`" cc1.trace
    row_of_ways "\`perl\`, which counts 3,000 words" perl.trace
    row_of_ways "\`dot -Tsvg\` of a graph of 200 nodes" dot.trace
    row_of_ways "\`python3 -S\` with \`PYTHONMALLOC=malloc\`, a dictionary of 2,000 lists" python.trace
    exit $failed
fi
graph 300
"$here/record" dot.vm -- dot -Tsvg graph.dot -o graph.svg || exit 1
"$here/record" gcc.vm -- gcc -c "$here/record.c" -o record.o || exit 1
PYTHONMALLOC=malloc "$here/record" python.vm -- \
    python3 -c 'import json; json.dumps({str(i): list(range(i)) for i in range(100)})' || exit 1
echo '| program | lines | the last `stat` |'
echo '|---|---|---|'
row "\`dot -Tsvg\` of a graph of 300 nodes" dot.vm
row "\`gcc -c tools/record.c\`: \`gcc\` itself" "$(of gcc gcc.vm)"
row "its compiler, \`cc1\`" "$(of cc1 gcc.vm)"
row "its assembler, \`as\`" "$(of as gcc.vm)"
row "\`python3\` with \`PYTHONMALLOC=malloc\`, which writes JSON" python.vm
exit $failed
