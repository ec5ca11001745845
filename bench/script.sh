#!/bin/sh
# Prints a script for vmreplay, or for dtrun where it puts objects:
#   bench/script.sh frees            20,000 lines: fifty names of blocks are allocated and freed in turn
#   bench/script.sh resizes [LINES]  200,000 lines or so many: of two hundred names, each line allocates, resizes or frees one
#   bench/script.sh segments         1,026 lines: of 1,025 allocations, 1,023 take a segment each
#   bench/script.sh one [LINES]      2,000,000 lines or so many: one block is allocated and freed again and again
#   bench/script.sh live BLOCKS      so many blocks of one byte are allocated in one region
#   bench/script.sh mixed METHOD BLOCKS   so many blocks of forty sites are allocated in a region of that method; every second
#                                    one is freed in mixed order and allocated anew, and then each is freed in mixed order
#   bench/script.sh watches BLOCKS   so many blocks of a debug region are watched, and then each is resized
#   bench/script.sh puts OBJECTS     so many objects are put into one queue and taken out again
#   bench/script.sh objects METHOD LINES   so many lines: of a thousand objects, each line inserts, deletes or looks for one
#                                    in a dictionary of that method, half of them insert
#   bench/script.sh turns OBJECTS OLD NEW   so many objects are put into a dictionary, which is turned to one method and
#                                    then to another
#   bench/script.sh keys METHOD LINES KEYS   so many lines on so many keys in a dictionary of that method: a third insert, a
#                                    sixth delete, half search
#   bench/script.sh line LINES       so many lines on a queue: of three, two insert and one takes the first object out
#   bench/script.sh nexts METHOD OBJECTS   so many objects are put into a dictionary of that method, and 'first' and 'next'
#                                    go through all
#   bench/script.sh equals OBJECTS   so many objects of one key are put into a bag, and what is beside them is looked for
#   bench/script.sh layers OBJECTS [walk]   two ordered sets have the same objects, so many, and the lower one as many more
#                                    behind them; the upper one views the lower one, and is walked where 'walk' is told
#   bench/script.sh halves METHOD BLOCKS   so many blocks in a region of that method, of which every second one is freed
#   bench/script.sh fills METHOD PLACE SIZE BLOCKS   so many blocks of that size in a region of that method over that discipline
# It needs awk.
set -eu

frees() {
    awk 'BEGIN {
        print "open r best 1"
        for (i = 0; i < 19998; i++) {
            name = i % 100
            if (name < 50) print "alloc r b" name " " (name * 37) % 900 + 1
            else print "free r b" (name - 50)
        }
        print "close r"
    }'
}

resizes() {
    awk -v lines="${1:-200000}" '
    function random(n) { seed = (seed * 1103515245 + 12345) % 2147483648; return int(seed / 65536) % n }
    BEGIN {
        seed = 1
        print "open r best 1"
        for (i = 0; i < lines - 2; i++) {
            name = random(200)
            size = random(900) + 1
            move = random(2)
            if (!(name in live)) { print "alloc r b" name " " size; live[name] }
            else if (move) print "resize r b" name " " size " move"
            else { print "free r b" name; delete live[name] }
        }
        print "close r"
    }'
}

segments() {
    awk 'BEGIN {
        print "open r best 1"
        for (i = 1; i <= 1023; i++) print "alloc r a" i " 4000"
        print "alloc r z 4000"
        print "alloc r z 16"
    }'
}

one() {
    awk -v lines="${1:-2000000}" 'BEGIN {
        print "open r best 1"
        for (i = 1; i < lines; i++) print i % 2 ? "alloc r a 1" : "free r a"
    }'
}

live() {
    awk -v blocks="$1" 'BEGIN {
        print "open r best 9"
        for (i = 1; i <= blocks; i++) print "alloc r b" i " 1"
        print "close r"
    }'
}

mixed() {
    awk -v method="$1" -v blocks="$2" '
    function random(n) { seed = (seed * 1103515245 + 12345) % 2147483648; return int(seed / 65536) % n }
    function put(i) { print "alloc r b" i " " random(199) + 1 " @s" random(40) }
    BEGIN {
        seed = 1
        print "open r " method " 16"
        for (i = 0; i < blocks; i++) put(i)
        for (i = 0; i < blocks; i++) if ((i * 7919) % blocks % 2) print "free r b" (i * 7919) % blocks
        for (i = 1; i < blocks; i += 2) put(i)
        for (i = 0; i < blocks; i++) print "free r b" (i * 7919) % blocks
        print "close r"
    }'
}

watches() {
    awk -v blocks="$1" 'BEGIN {
        print "open r debug 16"
        for (i = 0; i < blocks; i++) print "alloc r b" i " 24"
        for (i = 0; i < blocks; i++) print "watch r b" i
        for (i = 0; i < blocks; i++) print "resize r b" i " 20 move"
        print "close r"
    }'
}

puts() {
    awk -v objects="$1" 'BEGIN {
        print "open r best 9"
        print "dict q queue r 1"
        for (i = 1; i <= objects; i++) print "insert q o" i
        for (i = 1; i <= objects; i++) print "delete q"
        print "shut q"
        print "close r"
    }'
}

objects() {
    awk -v method="$1" -v lines="$2" '
    function random(n) { seed = (seed * 1103515245 + 12345) % 2147483648; return int(seed / 65536) % n }
    BEGIN {
        seed = 1
        print "open r best 9"
        print "dict d " method " r 1"
        for (i = 0; i < lines - 4; i++) {
            what = random(4)
            print (what < 2 ? "insert" : what == 2 ? "delete" : "search") " d k" random(1000)
        }
        print "shut d"
        print "close r"
    }'
}

turns() {
    awk -v objects="$1" -v old="$2" -v new="$3" 'BEGIN {
        print "open r best 9"
        print "dict d queue r 1"
        for (i = 1; i <= objects; i++) print "insert d o" (i * 7919) % 1000003
        print "method d " old
        print "method d " new
        print "shut d"
        print "close r"
    }'
}

keys() {
    awk -v method="$1" -v lines="$2" -v keys="$3" '
    function random(n) { seed = (seed * 1103515245 + 12345) % 2147483648; return int(seed / 65536) % n }
    BEGIN {
        seed = 1
        print "open r best 9"
        print "dict d " method " r 1"
        for (i = 0; i < lines - 4; i++) {
            what = random(6)
            print (what < 2 ? "insert" : what == 2 ? "delete" : "search") " d k" random(keys)
        }
        print "shut d"
        print "close r"
    }'
}

line() {
    awk -v lines="$1" 'BEGIN {
        print "open r best 9"
        print "dict d queue r 1"
        for (i = 0; i < lines - 4; i++) print i % 3 < 2 ? "insert d k" i % 5000 : "delete d"
        print "shut d"
        print "close r"
    }'
}

nexts() {
    awk -v method="$1" -v objects="$2" 'BEGIN {
        print "open r best 9"
        print "dict d " method " r 1"
        for (i = 1; i <= objects; i++) print "insert d o" (i * 7919) % 1000003
        print "first d"
        for (i = 1; i <= objects; i++) print "next d o" (i * 7919) % 1000003
        print "shut d"
        print "close r"
    }'
}

equals() {
    awk -v objects="$1" 'BEGIN {
        print "open r best 9"
        print "dict d bag r 1"
        for (i = 1; i <= objects; i++) print "insert d one"
        print "next d one"
        print "prev d one"
        print "shut d"
        print "close r"
    }'
}

layers() {
    awk -v objects="$1" -v walk="${2-}" 'BEGIN {
        print "open r best 9"
        print "dict d oset r 1"
        print "dict e oset r 1"
        for (i = 0; i < objects; i++) {
            print "insert d o" 1000000 + (i * 7919) % objects
            print "insert e o" 1000000 + (i * 7919) % objects
        }
        for (i = 0; i < objects; i++) print "insert e o" 2000000 + (i * 7919) % objects
        print "view d e"
        if (walk != "") print "walk d"
        print "view d -"
        print "shut d"
        print "shut e"
        print "close r"
    }'
}

fills() {
    awk -v method="$1" -v place="$2" -v size="$3" -v blocks="$4" 'BEGIN {
        print "open r " method " " place
        for (i = 0; i < blocks; i++) print "alloc r b" i " " size
    }'
}

halves() {
    awk -v method="$1" -v blocks="$2" 'BEGIN {
        print "open r " method " 9"
        for (i = 1; i <= blocks; i++) print "alloc r b" i " " i % 100 + 1
        for (i = 1; i <= blocks; i += 2) print "free r b" i
        print "close r"
    }'
}

case "${1-} $#" in
    "frees 1" | "segments 1" | "resizes 1" | "resizes 2" | "one 1" | "one 2" | "live 2" | "mixed 3" | "watches 2" | "puts 2" | \
    "objects 3" | "turns 4" | "keys 4" | "line 2" | "nexts 3" | "equals 2" | "layers 2" | "layers 3" | "halves 3" | "fills 5") "$@" ;;
    *) sed -n '/^#   bench/,/^# It needs/s/^#   //p' "$0" >&2; exit 2 ;;
esac
