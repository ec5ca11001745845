# Pictures.
# shellcheck shell=sh disable=SC2154
picture=$here/picture

[ -n "$browser" ] || skipped "that a browser shows the pictures and the curves: there is no Chromium"

# The numbers that a picture tells, in the order of stat, as far as it tells them; and the sum of all its parts.
told() {
    sed 's/,//g' "$1" | awk '
        function number(after,    text) {
            text = $0
            sub(".*" after " *", "", text)
            return text + 0
        }
        />blocks: / { busy = number("blocks:"); sbusy = number("with") }
        />gaps: / { free = number("gaps:"); sfree = number("with"); mfree = number("at most") }
        />free cells: / { free = number("cells:"); sfree = number("with"); mfree = number("%[)]") }
        />(heads|guards|rounding|what|ends|begins)/ { all += number(": ") }
        /y="48">/ { extent = number("y=\"48\">"); segs = number(" in ") }
        END { print busy + 0, free + 0, sbusy + 0, sfree + 0, mfree + 0, segs + 0, extent + 0, all + sbusy + sfree }'
}

stat_of() {
    sed 's/^[0-9]* busy /busy /' "$1" | awk '$1 == "busy" { print $2, $4, $6, $8, $12, $14, $16, $16 }' | tail -n 1
}

# picture_of NAME REPLIES OPTION..: the picture is there, well-formed, and its numbers are those of stat.
picture_of() {
    name=$1
    replies=$2
    shift 2
    "$picture" "$@" -t "$name & <more>" "$replies" > drawn.svg 2> drawn.said
    status=$?
    expected=0
    ! grep -q '^\([0-9]* \)\{0,1\}refused: ' "$replies" || expected=3
    check "picture of $name: status $expected" same "$status" "$expected"
    check "picture of $name: its numbers are those of stat" same "$(told drawn.svg)" "$(stat_of "$replies")"
    if has xmllint; then
        check "picture of $name: well-formed" xmllint --noout drawn.svg
    fi
}
has xmllint || skipped "that the pictures and the curves are well-formed: there is no xmllint"

for script in "$here"/../examples/*.vm; do
    drawn "$script" > drawn.replies
    name=$(basename "$script" .vm)
    method=$(awk '$1 == "open" { print $3; exit }' "$script")
    picture_of "$name" drawn.replies -m "$method"
    picture_of "$name, by the script" drawn.replies -s "$script"
    # Where no block is, the numbers of stat may be those of a pool too.
    if ! grep -q '^\([0-9]* \)\{0,1\}blocks 0$' drawn.replies; then picture_of "$name, by stat" drawn.replies; fi
    # Without stat the method is enough, and the cells of a pool.
    grep -v '^\([0-9]* \)\{0,1\}busy' drawn.replies > short.replies
    "$picture" -m "$method" -c 64 -t "$name & <more>" short.replies > short.svg 2> short.said
    check "picture of $name, without stat" same "$(told short.svg)" "$(stat_of drawn.replies)"
done
for method in best pool last debug profile; do
    for blocks in 1 1000 10000; do
        "$here/tests/layout" "$method" "$blocks" > layout.replies
        picture_of "$method, $blocks blocks" layout.replies -m "$method"
        check "picture of $method, $blocks blocks: a title for each" \
            same "$(grep -c 'class="block" d=.*<title>b[0-9]*: [0-9]*:[0-9]*, [0-9,]* bytes\{0,1\}' drawn.svg)" "$blocks"
        if [ -n "$browser" ]; then check "picture of $method, $blocks blocks: a browser shows it" shown; fi
    done
done
printf 'segments 1 1:4096\nblocks 2 a@1:32+24 b@1:64+24\n' > cells.replies
check "cells that adjoin are a pool's" same "$("$picture" -m pool cells.replies | told /dev/stdin)" "2 125 48 4000 32 1 4096 4096"

refused() {
    ! printf '%b' "$1" | "$picture" ${2:+-m "$2"} > /dev/null 2> fault && grep -q "$3" fault
}
check "no reply of blocks is told" refused 'segments 1 1:4096\n' best 'no reply of blocks'
check "a block in a segment that isn't listed is told" refused 'segments 1 1:4096\nblocks 1 a@2:32+1\n' best 'segment 2'
check "blocks that overlap are told" refused 'segments 1 1:4096\nblocks 2 a@1:32+20 b@1:64+1\n' best 'block b'
check "a block past the end is told" refused 'segments 1 1:4096\nblocks 1 a@1:32+4064\n' best 'block a'
check "a method that isn't known is told" refused 'segments 1 1:4096\nblocks 1 a@1:32+1\n' '' 'method is not known'
check "cells that aren't known are told" refused 'segments 1 1:4096\nblocks 1 a@1:32+1\n' pool 'cell are not known'
check "a block in no cell is told" refused 'busy 2 free 62 sbusy 2 sfree 3968 mbusy 1 mfree 64 segs 1 extent 4096\nsegments 1 1:4096\nblocks 2 a@1:32+1 b@1:64+1\n' pool 'block b'
check "numbers that may be of two methods are told" refused 'busy 0 free 1 sbusy 0 sfree 4064 mbusy 0 mfree 4064 segs 1 extent 4096\nsegments 1 1:4096\nblocks 0\n' '' 'more than one method'
check "numbers of another moment are told" refused 'busy 1 free 1 sbusy 9 sfree 1 mbusy 9 mfree 1 segs 1 extent 4096\nsegments 1 1:4096\nblocks 1 a@1:32+1\n' best 'one moment'
check "numbers of another method are told" refused 'busy 1 free 1 sbusy 1 sfree 3968 mbusy 1 mfree 3968 segs 1 extent 4096\nsegments 1 1:4096\nblocks 1 a@1:64+1\n' best 'one moment'

# The parts of what can be seen.
"$here/tests/layout" best 1000 > layout.replies
"$picture" layout.replies > drawn.svg
check "a picture tells bytes in segments" grep -q '>458,752 bytes in 7 segments, 1,000 blocks;' drawn.svg
check "heads in segments of 65,536 bytes are a pixel wide at least" \
    awk '/class="head" d=/ { n = split($0, w, "h"); for (i = 3; i < n; i++) if (w[i] ~ /^[0-9.]+M/) { seen++; if (w[i] + 0 < 1) bad++ } } END { exit !(seen > 900 && !bad) }' drawn.svg
printf '%s\n' 'open r best 1' 'alloc r a 100' 'alloc r big 16777216' 'alloc r c 3000' > great.vm
drawn great.vm > great.replies
picture_of "a great segment" great.replies
check "a great segment: the one of 4,096 bytes is as wide as half of it in a row" grep -q 'x="546" y="[0-9]*">4,096<' drawn.svg
check "a great segment: what isn't to scale is told" grep -q '>16,7[0-9,]* bytes more of this block, not to scale<' drawn.svg
printf '%s\n' 'open r best 1' 'alloc r a 100' '# malloc of 20000000 bytes: a script has no such block' \
    '# calloc of 30000000 bytes: a script has no such block' '# free of 20000000 bytes: a script has no such block' > left.vm
drawn left.vm > left.replies
"$picture" -s left.vm left.replies > drawn.svg
check "a block that was left out of the recording is told beneath the picture" grep -q ': 1 block with 30,000,000 bytes<' drawn.svg

# A script is run, up to a line, and drawn without a word on its method.
said() {
    "$picture" -p "$program" "$@" > drawn.svg 2> drawn.said
    status=$?
}
for script in "$here"/../examples/*.vm; do
    name=$(basename "$script" .vm)
    grep -v '^close' "$script" > open.vm
    drawn "$script" > drawn.replies
    said open.vm
    check "picture of the script $name: its numbers are those of stat" same "$(told drawn.svg)" "$(stat_of drawn.replies)"
done
said "$here/../examples/trace.vm"
check "picture of a script whose last command closes its region: that is told" \
    same "$status $(cat drawn.said)" "0 picture: line 40 closes region heap, which is drawn as it was before"
cp drawn.svg before.svg
said -n 39 "$here/../examples/trace.vm"
check "picture of a script whose last command closes its region: it is drawn as it was before" cmp before.svg drawn.svg
{ cat "$here/../examples/trace.vm"; echo 'open s best 2'; echo 'close s'; echo 'stat s'; } > closed.vm
said closed.vm
check "picture of a script whose region is closed before its end: the line is told" \
    same "$status $(cat drawn.said)" "1 picture: region s is closed at line 42: -n 41 draws it as it was before"
printf '%s\n' 'open r best 1' 'alloc r a 100' '# a comment' 'alloc r b 5000' 'free r a' 'alloc r c 10' 'clear r' 'alloc r d 1' > peak.vm
said -n peak peak.vm
check "picture at the peak: its line is told" same "$status $(cat drawn.said)" "0 picture: the most bytes are live behind line 4"
cp drawn.svg before.svg
said -n 4 peak.vm
check "picture at the peak: that of its line" cmp before.svg drawn.svg
said -n peak -r q peak.vm
check "picture at the peak of a region without a block" same "$status $(cat drawn.said)" "1 picture: no block of q is ever live"
said -n 34 "$here/../examples/trace.vm"
check "picture of the trace up to line 34: the numbers that its stat tells there" \
    same "$status $(told drawn.svg)" "0 9 6 3076 17024 8160 4 20480 20480"
check "picture of the trace up to line 34: the line stands in its title" grep -q '>Where the blocks of region heap lie behind line 34<' drawn.svg
said < open.vm
check "picture of a script on standard input" same "$status $(told drawn.svg)" "0 $(stat_of drawn.replies)"
said -n 41 "$here/../examples/trace.vm"
check "picture of a line that isn't there" same "$status $(cat drawn.said)" "2 picture: the script has 40 lines, and no line 41"
printf '%s\n' 'open r best 1' 'open s pool 2' 'alloc r a 10' 'alloc s a 20' > two.vm
said two.vm
check "picture of a script with two regions: it is asked which" \
    same "$status $(cat drawn.said)" "1 picture: behind line 4 the script has the regions r, s open: say which by -r"
said -r s two.vm
check "picture of a script with two regions: the one that is named" same "$status $(told drawn.svg)" "0 1 126 20 4032 32 1 4096 4096"
said -n 1 two.vm
check "picture of a script with two regions, up to the line before the second" same "$status $(told drawn.svg)" "0 0 0 0 0 0 0 0 0"
said -r t two.vm
check "picture of a region that is never opened" same "$status $(cat drawn.said)" "1 picture: no region t is open: the script opens r, s up to line 4"
for words in '' '# no command\n' 'alloc r a 1\n'; do
    printf %b "$words" > bad.vm
    said bad.vm
    check "picture of what is no script and no replies, '$words': it is told" same "$status $(cat drawn.said)" \
        "1 picture: no line opens a region, as in a script, and none is a reply of stat, segments or blocks"
done
printf '\357\273\277open r best 1\nalloc r a 1\n' > marked.vm
said marked.vm
check "picture of a script with a byte order mark: it is told" \
    same "$status $(cat drawn.said)" "1 picture: marked.vm begins with a byte order mark: tail -c +4 leaves its three bytes out"
printf 'open r best 1\nfrob\n' > bad.vm
said bad.vm
check "picture of a script with a bad line: it is told by its own number" \
    same "$status $(cat drawn.said)" "1 picture: vmreplay: line 2: unknown command"
said -m best two.vm
check "picture of a script: -m is for replies" same "$status $(grep -c ' are for replies' drawn.said)" "2 1"
printf 'segments 0\nblocks 0\n' > none.replies
said -n 3 none.replies
check "picture of replies: -n is for a script" same "$status $(grep -c ' is for a script' drawn.said)" "2 1"
"$picture" -p "$programs/dtrun" -n 5 "$here/../examples/set.dt" > drawn.svg 2> drawn.said
check "picture of a script with dictionaries" same "$? $(head -n 5 "$here/../examples/set.dt" | grep -c '^insert')" \
    "0 $(($(grep -c 'class="block" d=' drawn.svg) - 1))"

# What was refused.
printf '%s\n' 'open r best 1' '# two are too great' 'alloc r a 100' 'alloc r b 16777217' 'alloc r c 16777217' 'free r b' > refusals.vm
said refusals.vm
check "refused commands are told, with the first, and have a status of their own" \
    same "$status $(cat drawn.said)" "3 picture: 3 of 5 commands on region r were refused, the first at line 4: size"
check "refused commands are told beneath the picture" grep -q '>3 of 5 commands on region r were refused, the first at line 4: size<' drawn.svg
check "the first refused command is marked" same "$(grep -c 'class="first".*: line 4<' drawn.svg)" 1
said -n 3 refusals.vm
check "before them nothing is told" same "$status $(cat drawn.said)" "0 "
drawn refusals.vm > drawn.replies
said drawn.replies
check "refused commands of replies are told by the number of the reply" \
    same "$status $(cat drawn.said)" "3 picture: 3 of the first 5 replies are refusals, the first is reply 3: size"
said -s refusals.vm drawn.replies
check "with their script, by the line" \
    same "$status $(cat drawn.said)" "3 picture: 3 of 5 commands on region r were refused, the first at line 4: size"
{ cat two.vm; printf '%s\n' 'alloc s b 21' 'alloc s c 21'; } > other.vm
said -r r other.vm
check "what is refused of another region is not told" same "$status $(cat drawn.said)" "0 "
said -r s other.vm
check "what is refused of this one is" same "$status $(cat drawn.said)" "3 picture: 2 of 4 commands on region s were refused, the first at line 5: pool size"

# Version 2: the number in front of a reply is no part of it.
second
{ cat second.vm; printf '%s r\n' stat segments blocks; } | "$program" > numbered.replies
check "replies of version 2 are as they are told here" cmp second.replies numbered.replies
"$picture" -p ./second second.vm > drawn.svg 2> drawn.said
check "picture of a script of version 2" same "$? $(cat drawn.said) $(told drawn.svg)" \
    "3 picture: 2 of 4 commands on region r were refused, the first at line 5: size 1 1 100 3936 3936 1 4096 4096"
check "picture of a script of version 2: the block" grep -q '<title>a: 1:32, 100 bytes' drawn.svg
said second.replies
check "picture of replies of version 2" same "$status $(cat drawn.said) $(told drawn.svg)" \
    "3 picture: 2 of the first 4 replies are refusals, the first is reply 3: size 1 1 100 3936 3936 1 4096 4096"
said -s second.vm second.replies
check "picture of replies of version 2, by the script" same "$status $(cat drawn.said) $(told drawn.svg)" \
    "3 picture: 2 of 4 commands on region r were refused, the first at line 5: size 1 1 100 3936 3936 1 4096 4096"
{ cat second.replies; sed -n 's/^7 busy/stat r busy/p' second.replies; } > stat.replies
said stat.replies
check "picture of replies of version 2, and behind them the numbers of --stat" same "$status $(told drawn.svg)" "3 1 1 100 3936 3936 1 4096 4096"
{ echo '1 fig'; sed -n 's/^[789] //p' second.replies; } > walk.replies
said walk.replies
check "picture of replies of version 1, one of which begins with a number" same "$status $(told drawn.svg)" "0 1 1 100 3936 3936 1 4096 4096"

# A region that is closed.
{ cat two.vm; printf '%s\n' 'close r' 'stat r' 'segments r' 'blocks r'; } | "$program" > closed.replies
said closed.replies
check "replies behind a close: it is told" same "$status $(sed 's/:.*//; s/, .*//' drawn.said) $(grep -c 'region r is closed by reply 5, ' drawn.said)" "1 picture 1"
printf '%s\n' 'open r best 1' 'alloc r a 10' 'stat r' 'segments r' 'blocks r' 'close r' > behind.vm
"$program" < behind.vm > behind.replies
said behind.replies
check "a close behind the replies: it is told" \
    same "$status $(cat drawn.said)" "3 picture: region r is closed behind the replies that are drawn: they are of an earlier moment"
said -s behind.vm behind.replies
check "a close behind the replies, by the script: it is told" \
    same "$status $(cat drawn.said)" "3 picture: region r is closed behind the replies that are drawn: they are of an earlier moment"

# An overview.
"$here/tests/layout" best 10000 > layout.replies
"$picture" -o layout.replies > drawn.svg
check "an overview has a row for each segment" \
    same "$(grep -c 'class="row" .*<title>segment [0-9]*: 65,536 bytes, ' drawn.svg)" "$(awk '$1 == "segments" { print $2 }' layout.replies)"
check "an overview tells the same numbers" same "$(told drawn.svg)" "$(stat_of layout.replies)"
! has xmllint || check "an overview is well-formed" xmllint --noout drawn.svg
[ -z "$browser" ] || check "an overview: a browser shows it" shown
awk 'BEGIN { print "open r best 1"; for (i = 1; i <= 13; i++) print "alloc r b" i " " (i == 13 ? 2016 : 4032) }' > thirteen.vm
said -o thirteen.vm
check "an overview: a row whose one block fills a half" grep -q '<title>segment 13: 4,096 bytes, 1 block with 2,016 bytes (49.2 %)<' drawn.svg
check "an overview: the parts without a block are of one colour" same "$(grep 'class="l0" d=' drawn.svg | tr M '\n' | grep -c 'h450')" 1
said -o -n 13 thirteen.vm
check "of twelve segments there is no overview" same "$(grep -c 'class="row"' drawn.svg) $(grep -c 'class="block" d=' drawn.svg)" "0 12"

# Shares.
said -n 34 "$here/../examples/trace.vm"
check "the shares in the legend come to all" same \
    "$(sed -n 's/.*>[a-z].*bytes (\([0-9.]*\) %).*/\1/p' drawn.svg | awk '{ n += $1 } END { printf "%.0f\n", n }')" 100

# What is seen in the rendered picture of each method, without its texts and its legend: as many pixels as the bytes of blocks,
# heads and guards take at 900 pixels for 4,096 bytes, in rows of 16 pixels; at both ends of a piece a column may be mixed. Of
# what blocks leave a quarter is of their colour.
seen() {
    sed '/^<text/d; /^<rect class/d' "$1" > bare.svg
    rsvg-convert -o bare.png bare.svg
    "$here/tests/colours" bare.png 4a90d9 5a1a00 c2185b
}
if has rsvg-convert && has python3; then
    for method in best pool last debug profile; do
        "$here/tests/layout" "$method" 9 > layout.replies
        "$picture" -m "$method" layout.replies > drawn.svg
        seen drawn.svg > seen.counts
        sed 's/,//g' drawn.svg | awk -v counts="$(cat seen.counts)" -v method="$method" '
            function bytes(text) { sub(/.*(with|: ) */, "", text); return text + 0 }
            />blocks: / { block = bytes($0) }
            />(rounding|what)/ { block += bytes($0) / 4 }
            />heads/ { head = bytes($0) }
            />guards/ { guard = bytes($0) }
            function near(pixels, all, pieces,    due) { due = all * 900 / 4096 * 16; return pixels >= due - pieces * 32 && pixels <= due + 16 }
            END {
                split(counts, seen, " ")
                if (near(seen[1], block, 9) && near(seen[2], head, 9) && near(seen[3], guard, 18)) exit 0
                print counts, block, head, guard
                exit 1
            }' > seen.said
        check "rendered picture of $method: blocks, heads and guards take the pixels that are due" same "$? $(cat seen.said)" "0 "
    done
else
    skipped "what is seen in rendered pictures: there is no rsvg-convert or no python3"
fi
