# vmcompare beside vmreplay: what it tells of traces is what vmreplay tells of scripts that do by commands what the ways do.
# shellcheck shell=sh disable=SC2154
compare=$programs/vmcompare

# alone WAY TRACE: a script for vmreplay that runs a trace in one way, with a stat of each region behind the first command at
# which most bytes are live, and one at the end. WAY is best, last, or the first of eight classes of pools, as 5 for 2^5.
alone() {
    LC_ALL=C awk -v way="$1" '
    function class_of(size,    k) {
        for (k = 5; 2 ^ k < size; k++) ;
        return k
    }

    function stats(    k) {
        if (way == "best" || way == "last") print "stat t"
        else for (k = way; k < way + 8 && k <= 24; k++) print "stat p" k
    }

    # In a last region blocks are numbers in order of allocation.
    function put(x, size) {
        top++
        number[x] = top
        dead[top] = 0
        print "alloc t n" top " " size
    }

    function drop_dead() {
        while (top && dead[top]) print "free t n" top--
    }

    function in_last(command, x, size) {
        if (command == "alloc") put(x, size)
        else if (command == "free") dead[number[x]] = 1
        else if (number[x] == top) print "resize t n" top " " size " move"
        else {
            dead[number[x]] = 1
            put(x, size)
        }
        drop_dead()
    }

    function cell(command, x, size,    k) {
        k = class_of(size)
        if (k < way || k >= way + 8) return
        print command " p" k " " x (command == "alloc" ? " " 2 ^ k : "")
    }

    function in_pools(command, x, size, old) {
        if (command == "resize" && class_of(size) == class_of(old)) return
        if (command != "free") cell("alloc", x, size)
        if (command != "alloc") cell("free", x, old)
    }

    # The first time the file is read, the command is found behind which most bytes are live.
    FNR == 1 { pass++; live = 0; split("", size_of) }
    pass == 2 && FNR == 1 {
        if (way == "best" || way == "last") print "open t " way " 1"
        else for (k = way; k < way + 8 && k <= 24; k++) print "open p" k " pool " k - way + 1
    }
    /^[ \t]*(#|$)/ { next }
    {
        size = $1 == "free" ? 0 : $4 + 0
        old = size_of[$3] + 0
        live += size - old
        size_of[$3] = size
        if (pass == 1) {
            if (live > most) { most = live; most_at = FNR }
            next
        }
        if (way == "best") print $1, "t", $3, $1 == "free" ? "" : size, $1 == "resize" ? "move" : ""
        else if (way == "last") in_last($1, $3, size)
        else in_pools($1, $3, size, old)
        if (FNR == most_at) stats()
    }
    END { if (pass == 2) stats() }' "$2" "$2"
}

# The greatest live bytes of a trace.
most_live() {
    LC_ALL=C awk '!/^[ \t]*(#|$)/ {
        size = $1 == "free" ? 0 : $4 + 0
        live += size - size_of[$3]
        size_of[$3] = size
        if (live > most) most = live
    } END { print most + 0 }' "$1"
}

# What is to be told of a trace.
three_ways() {
    most=$(most_live "$1")
    echo "live $most"
    for way in best last pool; do
        runs_of=$way
        [ "$way" != pool ] || runs_of='5 13 21'
        for one in $runs_of; do
            alone "$one" "$1" > alone.vm
            # The first half of the lines is behind the command with most live bytes, and the other half at the end.
            "$program" < alone.vm | awk '/^refused/ { print; exit } / extent / { extent[++n] = $NF }
                END { for (i = 1; i <= n / 2; i++) print extent[i], extent[i + n / 2] }'
        done | awk -v way="$way" -v most="$most" '/^refused/ { print way, $0; next } { sum += $1; all += $2 }
            END { print way " peak " all " waste " sum - most }'
    done
}

compared() {
    three_ways "$1" > ways.due
    "$compare" < "$1" > ways.got 2> fault || { cat fault; return 1; }
    diff ways.due ways.got
}

for trace in "$here"/../examples/*.trace; do
    check "vmcompare of $(basename "$trace"): as vmreplay has it" compared "$trace"
done
for seed in 1 2 3; do
    awk -v seed="$seed" '
    function random(n) { seed = (seed * 1103515245 + 12345) % 2147483648; return int(seed / 65536) % n }
    BEGIN {
        for (i = 0; i < 4000; i++) {
            name = random(120)
            size = random(4) ? random(200) + 1 : random(9000) + 1
            if (!(name in live)) { print "alloc t b" name " " size; live[name] }
            else if (random(3)) print "resize t b" name " " size " move"
            else { print "free t b" name; delete live[name] }
        }
    }' > random.trace
    check "vmcompare of 4,000 random commands, seed $seed: as vmreplay has it" compared random.trace
done
if has cc; then
    compiled sizes
    "$here/record" -t sizes.trace -- ./sizes
    check "vmcompare of a recorded program: as vmreplay has it" compared sizes.trace
    "$here/record" -t --sites sizes.trace -- ./sizes
    check "vmcompare of a recorded program with its sites" compared sizes.trace
    if has perl; then
        # shellcheck disable=SC2016
        "$here/record" -t perl.trace -- \
            perl -e 'for (1..500) { $h{$_} = "x" x $_ } for (1..500) { delete $h{$_} if $_ % 3 }'
        check "vmcompare of a recorded Perl program: as vmreplay has it" compared perl.trace
    else
        skipped "vmcompare of a recorded Perl program: there is no perl"
    fi
else
    skipped "vmcompare of recorded programs: there is no cc"
fi

# A region has at most 1,023 segments.
awk 'BEGIN { for (i = 1; i <= 1024; i++) print "alloc t b" i " 4000" }' > many.trace
head -n 1023 many.trace > fewer.trace
check "vmcompare of 1,023 segments" compared fewer.trace
"$compare" < many.trace > many.got 2> fault
check "vmcompare of one more: status 7, told on standard error alone" \
    same "$? $(cat fault many.got)" "7 vmcompare: line 1024: too many segments"
# In the best region the second half goes where the first one was.
awk 'BEGIN { for (i = 1; i <= 2000; i++) { print "alloc t b" i " 4000"; if (i > 1) print "free t b" i - 1 } }' > dead.trace
"$compare" < dead.trace > many.got 2> fault
check "vmcompare of a last region with 1,023 segments of dead blocks: status 7 at its line" \
    same "$? $(cat fault many.got)" "7 vmcompare: line 2046: too many segments"
awk 'BEGIN { for (i = 1; i <= 1000000; i++) print "alloc t b" i " 1" }' > most.trace
{ cat most.trace; echo 'alloc t a 1'; } | "$compare" > many.got 2> fault
check "vmcompare of blocks of one byte: too many segments come first" \
    same "$? $(cat fault many.got)" "7 vmcompare: line 129922: too many segments"

# A device takes no byte of the line that tells of it.
if [ -w /dev/full ]; then
    echo frob | "$compare" > many.got 2> /dev/full
    check "vmcompare of a bad line that can't be told: status 4" same "$? $(cat many.got)" "4 "
    "$compare" --quiet < /dev/null > many.got 2> /dev/full
    check "vmcompare with a word, which can't be told: status 4" same "$? $(cat many.got)" "4 "
    "$compare" < many.trace > many.got 2> /dev/full
    check "vmcompare of too many segments, which can't be told: status 4" same "$? $(cat many.got)" "4 "
    "$compare" < . > many.got 2> /dev/full
    check "vmcompare of a failed read that can't be told: status 3" same "$? $(cat many.got)" "3 "
else
    skipped "vmcompare of what can't be told: there is no /dev/full"
fi

# Drawings.
ways=$here/ways
drawn_ways() {
    "$ways" -p "$compare" "$@" > drawn.svg 2> drawn.said
    status=$?
}
drawn_ways -t 'a & <b>' "$here/../examples/array.trace"
check "ways of a trace: status 0, and nothing is said" same "$status $(cat drawn.said)" "0 "
! has xmllint || check "ways of a trace: well-formed" xmllint --noout drawn.svg
[ -z "$browser" ] || check "ways of a trace: a browser shows it" shown
check "ways of a trace: each way's extent at the end and its waste" same "$(sed -n 's/.*>\(best\|last\|pool\), [a-z ]*: \(.*\) at the end; with most bytes live, \(.*\) wasted<.*/\1 \2 \3/p' drawn.svg | tr '\n' ';')" \
    "best 4,096 bytes 848;last 8,192 bytes 4,944;pool 24,576 bytes 21,328;"
check "ways of a trace: the live bytes" grep -q '>at most 3,248 bytes live, first behind line 14; 17 lines, 17 points<' drawn.svg
check "ways of a trace: a point" grep -q '<title>behind line 8: 376 bytes live, best 4,096, last 4,096, pool 12,288<' drawn.svg
drawn_ways -n 4 "$here/../examples/array.trace"
check "ways of a trace: four points" same "$status $(grep -c 'class="point"' drawn.svg)" "0 4"
drawn_ways /dev/null
check "ways of no command" same "$status $(cat drawn.said) $(grep -c 'no byte is ever live; 0 lines' drawn.svg)" "0  1"
drawn_ways many.trace
check "ways of a trace that fills a region: status 3, and it is told" same "$status $(cat drawn.said)" "3 ways: vmcompare: line 1024: too many segments"
check "ways of a trace that fills a region: it is drawn up to there, and marked" \
    same "$(grep -c 'class="full"' drawn.svg) $(sed -n 's/.*class="stops left"[^>]*>\([^<]*\)<.*/\1/p' drawn.svg) $(grep -c '1,023 lines, 60 points<' drawn.svg)" "1 it stops at line 1,024: too many segments 1"
! has xmllint || check "ways of a trace that fills a region: well-formed" xmllint --noout drawn.svg
printf 'alloc t a 100\nfree t b\n' > out.trace
drawn_ways out.trace
check "ways of a trace with a line that is out of it: nothing is drawn" same "$status $(cat drawn.said) $(wc -c < drawn.svg)" "1 ways: vmcompare: line 2: not in a trace 0"
printf '%s\n' 'alloc t a 100' '# malloc of 20000000 bytes: a script has no such block' 'alloc t b 100' > left.trace
drawn_ways left.trace
check "ways of what a recording left out: it is told, and has a status of its own" \
    same "$status $(cat drawn.said) $(grep -c '>1 block is in no command, at most 20,000,000 bytes at once<' drawn.svg)" "3 ways: 1 block is in no command, at most 20,000,000 bytes at once 1"
drawn_ways -n 0 many.trace
check "ways of no run" same "$status $(cat drawn.said)" "2 ways: the number of runs is from 1 to 1,000"
drawn_ways missing.trace
check "ways of a trace that isn't there" same "$status $(cat drawn.said)" "2 ways: missing.trace can't be read"
"$here/ways" --csv -n 2 -p "$programs/vmcompare" "$here/../examples/array.trace" > drawn.csv 2> fault
check "ways of a trace: lines of numbers" same "$? $(head -n 1 drawn.csv) $(wc -l < drawn.csv | tr -d ' ') $(tail -n 1 drawn.csv | cut -d , -f 3-)" \
    "0 line,live,best,last,pool 3 $("$programs/vmcompare" < "$here/../examples/array.trace" | awk '$1 != "live" { printf "%s%s", comma, $3; comma = "," }')"
"$here/ways" -n 3 -p "$programs/vmcompare" "$here/../examples/array.trace" > drawn.svg 2> fault
check "ways of a trace: each line is named at its end" same "$(grep -c '<text class="axis" x="996"' drawn.svg)" 3
