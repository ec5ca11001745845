# Curves.
# shellcheck shell=sh disable=SC2154
curve=$here/curve
curved() {
    "$curve" -p "$program" "$@" > drawn.svg 2> fault || { cat fault; return 1; }
    ! has xmllint || xmllint --noout drawn.svg
}
check "curve of the trace" curved -t 'a & <b>' "$here/../examples/trace.vm"
if [ -n "$browser" ]; then check "curve of the trace: a browser shows it" shown; fi
check "curve of the trace: its peak" grep -q '>peak: 8,076 bytes live behind line 32; 40 lines, 40 points<' drawn.svg
check "curve of the trace: the points" same "$(grep -c 'class="point"' drawn.svg)" 40
check "curve of the trace: what stat tells behind line 34" grep -q '<title>behind line 34: 3,076 bytes live, extent 20,480, waste 17,404<' drawn.svg
check "curve of the trace: the peak is marked" same "$(grep -c '<circle ' drawn.svg)" 1
check "curve of the trace, a point each seven lines" curved -n 7 "$here/../examples/trace.vm"
check "curve of the trace: a point lies at the peak" grep -q '>peak: 8,076 bytes live behind line 32; 40 lines, 7 points<' drawn.svg
for method in best pool last debug profile; do
    for blocks in 1 1000; do
        awk -v method="$method" -v n="$blocks" 'BEGIN {
            print "open r " method " 9"
            for (i = 1; i <= n; i++) print "alloc r b" i " " (method == "pool" ? 64 : 1 + i * 37 % 400)
            for (i = n; i > n / 2; i--) print "free r b" i
        }' > curve.vm
        check "curve of $method, $blocks blocks" curved curve.vm
        { head -n "$((blocks + 1))" curve.vm; echo 'stat r'; } | "$program" | awk '$1 == "busy" { print $6 }' > peak
        check "curve of $method, $blocks blocks: the peak is that of stat" \
            same "$(sed -n 's/.*>peak: \([0-9,]*\) bytes\{0,1\} live.*/\1/p' drawn.svg | tr -d ,)" "$(cat peak)"
    done
done
check "curve of dictionaries: the peak is that of the points" "$curve" -p "$programs/dtrun" "$here/../examples/set.dt" > drawn.svg
for words in '' '# no command\n' 'alloc r a 1\n'; do
    printf %b "$words" > bad.vm
    "$curve" -p "$program" bad.vm > drawn.svg 2> fault
    check "curve of a script that opens no region, '$words': it is told" same "$? $(cat fault)" "1 curve: the script opens no region"
done
printf '\357\273\277open r best 1\nalloc r a 1\n' > marked.vm
"$curve" -p "$program" marked.vm > drawn.svg 2> fault
check "curve of a script with a byte order mark: it is told" \
    same "$? $(cat fault)" "1 curve: the script begins with a byte order mark: tail -c +4 leaves its three bytes out"
printf '\377\376o\000p\000' > marked.vm
"$curve" -p "$program" marked.vm > drawn.svg 2> fault
check "curve of a script in UTF-16: it is told" same "$? $(sed 's/:  *convert.*//' fault)" "1 curve: the script begins with the byte order mark of UTF-16"
printf 'open r best 1\nalloc r a 1\nfrob\n' > bad.vm
curved bad.vm > bad.said
check "curve: a bad line is told by its own number" same "$(cat bad.said)" "curve: vmreplay: line 3: unknown command"

# What was refused, and regions that are not there.
said() {
    "$curve" -p "$program" "$@" > drawn.svg 2> drawn.all
    status=$?
    # The peak is told wherever there is a drawing.
    grep -v '^curve: peak: ' drawn.all > drawn.said
}
printf '%s\n' 'open r best 1' '# two are too great' 'alloc r a 100' 'alloc r b 16777217' 'alloc r c 16777217' 'free r b' 'open s best 2' \
    'alloc s a 7' 'alloc s a 7' > refusals.vm
said refusals.vm
check "curve: refused commands are told, with the first, and have a status of their own" \
    same "$status $(cat drawn.said)" "3 curve: 3 of 5 commands on region r were refused, the first at line 4: size"
check "curve: they are told beneath the drawing" grep -q '>3 of 5 commands on region r were refused, the first at line 4: size<' drawn.svg
check "curve: the first of them is marked" same "$(grep -c 'class="refused"\|class="first".*: line 4<\|>first refused: line 4<' drawn.svg)" 3
said -r s refusals.vm
check "curve: those of another region are not told" \
    same "$status $(cat drawn.said)" "3 curve: 1 of 3 commands on region s was refused, the first at line 9: block exists"
said "$here/../examples/trace.vm"
check "curve: with none refused the status is 0" same "$status $(cat drawn.said) $(grep -c refused drawn.svg)" "0  0"
check "curve: the peak and its line are told" same "$(sed 's/curve: peak: [0-9,]* bytes live behind line [0-9,]*$/told/' drawn.all)" told
said -r q refusals.vm
check "curve of a region that is never opened" same "$status $(cat drawn.said)" "1 curve: no region q is ever open: the script opens r, s"
printf 'open r best 19\nalloc r a 1\n' > bad.vm
said bad.vm
check "curve of a region whose open is refused" \
    same "$status $(cat drawn.said)" "1 curve: no region r is ever open: line 1 is refused: no such discipline"
said -r 'r x' bad.vm
check "curve of a region whose name is none" same "$status $(cat drawn.said)" "2 curve: no name of a region: r x"

# Sites, one on another: seven sites whose peaks are 1,000 to 7,000 bytes, and one more block without a site.
awk 'BEGIN {
    print "open r best 9"
    for (i = 1; i <= 7; i++) print "alloc r b" i " " i * 1000 " @s" i
    print "alloc r c 10"
    print "resize r b6 100 move"
    print "free r b7"
}' > stack.vm
said -s stack.vm
check "curve of sites: status 0" same "$status $(cat drawn.said)" "0 "
check "curve of sites: the five with the greatest peaks, from the greatest on" \
    same "$(sed -n 's/.*>\(s[0-9]\): at most.*/\1/p' drawn.svg | tr '\n' ' ')" "s7 s6 s5 s4 s3 "
check "curve of sites: bytes at most, at the peak and at the end" \
    grep -q '>s6: at most 6,000 bytes, 6,000 at the peak (21.4 %), 100 at the end<' drawn.svg
check "curve of sites: the rest" \
    grep -q '>all others, 3 sites: at most 3,010 bytes, 3,010 at the peak (10.7 %), 3,010 at the end<' drawn.svg
check "curve of sites: the peak" grep -q '>peak: 28,010 bytes live behind line 9; 11 lines, 11 points<' drawn.svg
check "curve of sites: an area for each" same "$(grep -c '<path class="s[0-9]" d="M[^h]*Z"/>' drawn.svg)" 6
# The parts of the peak are the same where it lies between two points.
grep -o '>[a-z0-9, ]*: at most [0-9,]* bytes, [0-9,]* at the peak' drawn.svg > stack.parts
said -s -n 4 stack.vm
check "curve of sites: between two points the peak has the same parts" \
    same "$(grep -o '>[a-z0-9, ]*: at most [0-9,]* bytes, [0-9,]* at the peak' drawn.svg)" "$(cat stack.parts)"
! has xmllint || check "curve of sites: well-formed" xmllint --noout drawn.svg
[ -z "$browser" ] || check "curve of sites: a browser shows it" shown
said -s "$here/../examples/trace.vm"
check "curve of sites without any: it is told" \
    same "$status $(cat drawn.said)" "1 curve: no block of region heap has a site: an alloc names one by @ and a name"

# Version 2.
second
"$curve" -p "$program" -n 6 second.vm > drawn.svg 2> drawn.said
check "curve of a script of version 2" same "$? $(tr '\n' ';' < drawn.said)" \
    "3 curve: 2 of 4 commands on region r were refused, the first at line 5: size;curve: peak: 100 bytes live behind line 4;"
check "curve of a script of version 2: its peak" grep -q '>peak: 100 bytes live behind line 4; 6 lines, 2 points<' drawn.svg
check "curve of a script of version 2: what stat tells" grep -q '<title>behind line 6: 100 bytes live, extent 4,096, waste 3,996<' drawn.svg
said -n 1 second.vm
check "curve of a script of version 2, a point each line" same "$status $(cat drawn.said) $(grep -c 'class="point"' drawn.svg)" \
    "3 curve: 2 of 4 commands on region r were refused, the first at line 5: size 6"

# Texts stand in strips of their own: from above the legend, the word of the axis and the peak, the drawing, and beneath it the
# first refusal, the numbers of lines and the word of that axis.
strips() {
    sed -n 's/.*<text[^>]* y="\([0-9.]*\)">\(.*\)<\/text>/\1 \2/p' "$1" | awk -v drawn="$(sed -n 's/.* d="M110 \([0-9]*\)L.*/\1/p' "$1" | head -n 1)" '
        function bad(text) { print "  " text; failed = 1 }
        / at the end$/ { legend = $1 }
        $2 == "bytes" && NF == 2 { word = $1 }
        $2 == "peak:" && NF == 4 { peak = $1 }
        $2 == "first" { first = $1 }
        $2 == "0" && NF == 2 { line = $1 }
        / line of the script$/ { axis = $1 }
        END {
            # The drawing is 320 high, and a text at most 14.
            top = drawn - 320
            if (!(drawn && legend && word && peak && line && axis)) bad("a text is missing")
            if (word - 14 < legend || peak - 14 < legend) bad("the word of the axis or the peak crosses the legend")
            if (word > top - 4 || peak > top - 4) bad("the word of the axis or the peak crosses the drawing")
            if (first && (first - 10 < drawn || line - 12 < first)) bad("the first refusal crosses the drawing or the numbers")
            if (line - 12 < drawn || axis - 12 < line) bad("numbers of lines cross the drawing or the word beneath")
            exit failed
        }'
}
for script in "$here/../examples/trace.vm" refusals.vm curve.vm; do
    said "$script"
    check "curve of $(basename "$script"): no text crosses what is drawn" strips drawn.svg
done
said -s stack.vm
check "curve of sites: no text crosses what is drawn" strips drawn.svg

# All regions together.
printf '%s\n' 'open r best 1' 'open s pool 2' 'alloc r a 100 @one' 'alloc s a 50 @one' 'alloc s b 40 @two' 'clear r' 'alloc r a 30 @two' \
    'close s' 'alloc s a 1 @one' > regions.vm
said -a regions.vm
check "curve of all regions: the peak is that of the sum" grep -q '>peak: 190 bytes live behind line 5; 9 lines, 9 points<' drawn.svg
check "curve of all regions: each point is the sum of their numbers" \
    grep -q '<title>behind line 7: 120 bytes live, extent 8,192, waste 8,072<' drawn.svg
check "curve of all regions: what was refused" \
    same "$status $(cat drawn.said)" "3 curve: 1 of 9 commands was refused, the first at line 9: no region"
said -as regions.vm
check "curve of all regions by sites" \
    grep -q '>one: at most 150 bytes, 150 at the peak (78.9 %), 0 at the end<' drawn.svg
said regions.vm
check "curve of the first region alone" grep -q '>peak: 100 bytes live behind line 3; 9 lines, 9 points<' drawn.svg
{ cat regions.vm; echo frob; } > bad.vm
said -a -n 4 bad.vm
check "curve of all regions: a bad line is told by its own number" same "$status $(cat drawn.said)" "1 curve: vmreplay: line 10: unknown command"

# What a recording left out of the script.
printf '%s\n' 'open r best 9' 'alloc r a 1000 @main' '# malloc of 100000000 bytes: a script has no such block' 'alloc r b 3000 @put' \
    '# calloc of 20000000 bytes: a script has no such block' '# free of 100000000 bytes: a script has no such block' 'alloc r c 20 @main' \
    '# malloc of 0 bytes: a script has no such block' > left.vm
said left.vm
check "curve of what a recording left out: it is told, and has a status of its own" \
    same "$status $(cat drawn.said)" "3 curve: 2 blocks are in no command, at most 120,000,000 bytes at once"
check "curve of what a recording left out: it is drawn over what is live" \
    same "$(grep -c '<path class="missing" d="M110 [0-9]*L' drawn.svg) $(grep -c '>in no command, over what is live: at most 120,000,000 bytes, 20,000,000 at the end<' drawn.svg)" "1 1"
check "curve of what a recording left out: no text crosses what is drawn" strips drawn.svg
said -s left.vm
check "curve of sites, of what a recording left out" same "$status $(grep -c 'class="missing"' drawn.svg)" "3 2"

# The waste that counts is that at the peak; lines of numbers.
printf '%s\n' 'open r best 1' 'alloc r a 4000' 'alloc r b 100' 'free r a' 'alloc r c 9000' 'free r b' 'free r c' > waste.vm
said -n 7 waste.vm
check "curve: the waste at the peak, at the end, and the greatest" grep -q \
    '>waste, the extent without what is live: 11,380 bytes at the peak, 20,480 at the end; the greatest is 20,480, behind line 7<' drawn.svg
"$curve" --csv -p "$program" -n 3 waste.vm > drawn.csv 2> fault
check "curve: lines of numbers" same "$? $(tr '\n' ' ' < drawn.csv)" \
    "0 line,live,extent,waste 3,4100,8192,4092 5,9100,20480,11380 6,9000,20480,11480 7,0,20480,20480 "
printf '%s\n' 'open r best 1' 'alloc r a 100 @one' 'alloc r b 50 @two' 'free r a' > stacked.vm
"$curve" --csv -s -n 2 -p "$program" stacked.vm > drawn.csv 2> fault
check "curve of sites: lines of numbers" same "$? $(tr '\n' ' ' < drawn.csv)" "0 line,one,two,others 2,100,0,0 3,100,50,0 4,0,50,0 "
printf '%s\n' 'open r best 1' 'alloc r a 100' 'alloc r b 1' 'frob' > bad.vm
"$curve" -n 1 -p "$program" bad.vm > drawn.svg 2> fault
check "curve with a point at each line: a bad line is told by its own number" same "$? $(cat fault)" "1 curve: vmreplay: line 4: unknown command"
