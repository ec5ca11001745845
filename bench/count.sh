#!/bin/sh
# Counts what vmreplay does. The scripts are those of bench/script.sh:
#   bench/count.sh calls         the system's calls in a run of 2,000,000 lines, by 'strace -c'
#   bench/count.sh instructions  the instructions of the scripts 'resizes' of 20,000 and of 100,000 lines, by
#                                'valgrind --tool=callgrind', and how many that is for each line
#   bench/count.sh regions       the instructions of a best region's calls alone, in runs of 100,000 and of 1,000,000
#                                generated commands, and how many that is for each command; and those of the function
#                                that runs a command in a region, in which some of them are inlined
#   bench/count.sh objects       the instructions of the calls on dictionaries and their region alone, in runs of 100,000 and
#                                of 1,000,000 lines over an ordered set and over a set, and how many that is for each line;
#                                and those of the function that runs a command, in which some of them are inlined
# Run by hand at the top of the repository. It needs awk, and strace or valgrind.
set -eu

instructions() {
    for lines in 20000 100000; do
        bench/script.sh resizes "$lines" > "$dir/script"
        valgrind --tool=callgrind --callgrind-out-file=/dev/null bin/vmreplay < "$dir/script" 2> "$dir/log" > /dev/null
        awk -v lines="$lines" '/Collected/ { print lines " lines: " $4 " instructions, " int($4 / lines) " a line" }' "$dir/log"
    done
}

calls() {
    bench/script.sh one > "$dir/script"
    strace -f -c -e trace=read,write -o "$dir/log" bin/vmreplay < "$dir/script" > /dev/null
    awk '$NF == "read" || $NF == "write" { print $NF ": " $4 " calls" }' "$dir/log"
}

regions() {
    for commands in 100000 1000000; do
        valgrind --tool=callgrind --callgrind-out-file="$dir/calls" bin/vmreplay --gen "$commands" --seed 7 2> "$dir/log" > /dev/null
        callgrind_annotate --tree=calling --inclusive=yes "$dir/calls" 2> /dev/null | tr -d , | awk -v commands="$commands" '
            / \*  .*HomeEntry::run / { inside = 1; own = $1; next }
            inside && / >  / { own -= $1; if (/vc_best|vc_gaps|vc_extent/) calls += $1 }
            inside && /^$/ { exit }
            END { print commands " commands: " calls " instructions, " int(calls / commands) " a command, and " own " of HomeEntry::run, " int(own / commands) " a command" }'
    done
}

objects() {
    for method in oset set; do
        for lines in 100000 1000000; do
            bench/script.sh objects "$method" "$lines" > "$dir/script"
            valgrind --tool=callgrind --callgrind-out-file="$dir/calls" bin/dtrun < "$dir/script" 2> "$dir/log" > /dev/null
            callgrind_annotate --tree=calling --inclusive=yes --threshold=100 "$dir/calls" 2> /dev/null | tr -d , | awk -v method="$method" -v lines="$lines" '
                function below() { return /:vc_(dict|dtord|dthash|dtlist|objects|best|gaps|extent|segments|seg|splay)::/ }
                / \*  / { inside = below(); if (/Session::run_command/) whole = $1 }
                / >  / { if (!inside && below()) calls += $1 }
                END { printf "%s, %d lines: %d instructions, ", method, lines, calls; print int(calls / lines) " a line, of " whole " of Session::run_command, " int(whole / lines) " a line" }'
        done
    done
}

case "${1-}" in
    calls | instructions | regions | objects) ;;
    *) echo "usage: bench/count.sh calls|instructions|regions|objects" >&2; exit 2 ;;
esac
make all > /dev/null
dir=$(mktemp -d)
trap 'rm -rf "$dir"' EXIT
"$1"
