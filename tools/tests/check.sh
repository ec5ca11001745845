# What is said of bad lines and of refusals.
# shellcheck shell=sh disable=SC2154
checked() {
    "$here/check" "$@" > checked.out 2> checked.said
    status=$?
}

# finds WHAT SCRIPT LINE..: of the script, whose \n and the like are read, these lines are printed, with status 1.
finds() {
    what=$1
    printf '%b' "$2" > checked.vm
    shift 2
    printf '%s\n' "$@" > checked.due
    checked -p "$program" checked.vm
    cat checked.said >> checked.out
    check "check: $what" same "$status $(cat checked.out)" "1 $(cat checked.due)"
}

finds "a number" 'open r best 1\nalloc r a 4k\n' 'checked.vm:2:11: bad number' '    alloc r a 4k' '              ^~' \
    'hint: 0x10, 4k, 1,000 or -1: decimal digits alone'
finds "a site without its @" 'alloc r a 1 s\n' 'checked.vm:1:13: bad name' '    alloc r a 1 s' '                ^' \
    "hint: a word behind the size of alloc that isn't a site: @ in front of it"
finds "a name" 'open 9r best 1\n' 'checked.vm:1:6: bad name' '    open 9r best 1' '         ^~' \
    'hint: a name that begins with a digit, or has a - in it: letters, digits, _ and ., a letter first'
finds "an address" 'addr r 5\n' 'checked.vm:1:8: bad address' '    addr r 5' '           ^' \
    'hint: an offset without its segment, or segment 0: 1:32; segments are counted from 1'
finds "bytes, behind tabs" '\twrite r a 0\t%zz\n' 'checked.vm:1:14: bad bytes' '    \twrite r a 0\t%zz' '                   ^~~' \
    'hint: a percent sign: %25'
finds "a method" 'open r bset 1\n' 'checked.vm:1:8: unknown method or mode' '    open r bset 1' '           ^~~~' \
    'hint: upper case, or a word like in-place: best, pool, last, debug or profile; move or fixed'
finds "a method of dictionaries" 'open r set 1\n' 'checked.vm:1:8: unknown method or mode' '    open r set 1' '           ^~~' \
    "hint: a region's method at dict, or a dictionary's at open: open r best 1 first, then dict d set r 1"
finds "a mode, in a line that ends with CR" 'resize r a 1 Move\r\n' 'checked.vm:1:14: unknown method or mode' '    resize r a 1 Move\r' \
    '                 ^~~~' 'hint: upper case, or a word like in-place: best, pool, last, debug or profile; move or fixed'
finds "upper case" 'Alloc r a 4\n' 'checked.vm:1:1: unknown command' '    Alloc r a 4' '    ^~~~~' \
    'hint: upper case: Alloc: commands, methods and modes are in lower case'
finds "a comment of another kind" '// hi\n' 'checked.vm:1:1: unknown command' '    // hi' '    ^~' \
    'hint: a comment that begins with // or ;: comments begin with #'
finds "a byte order mark" '\0357\0273\0277open r best 1\n' 'checked.vm:1:1: unknown command' '    \357\273\277open r best 1' '    ^~~~~~~~~~~~~~~~' \
    'hint: the file begins with a byte order mark: tail -c +4 script leaves its three bytes out; in UTF-16, convert the file first'
finds "a version that isn't on line 1" '# hi\nvc 2\n' 'checked.vm:2:1: unknown command' '    vc 2' '    ^~' \
    'hint: vc 2 on another line than the first: a comment or a blank line stands before it: the version stands on line 1, or nowhere'
finds "a version that isn't there" 'vc 3\nopen r best 1\n' 'checked.vm:1:4: unknown version' '    vc 3' '       ^' \
    'hint: a number behind vc that is neither 1 nor 2: vc 2, or no such line'
finds "a version without its number" 'vc\n' 'checked.vm:1:3: wrong number of words' '    vc' '      ^' \
    'vc is a line of 2 words, and here are 1' \
    'hint: open without its discipline, or resize without its mode: open r best 1, resize r a 10 move'
finds "a version that is no number" ' vc two\n' 'checked.vm:1:5: bad number' '     vc two' '        ^~~' \
    'hint: 0x10, 4k, 1,000 or -1: decimal digits alone'
finds "a bad line of version 2" 'vc 2\nopen r best 1\nalloc r a 4k\n' 'checked.vm:3:11: bad number' '    alloc r a 4k' '              ^~' \
    'hint: 0x10, 4k, 1,000 or -1: decimal digits alone'
finds "a word that is no command" 'frob\n' 'checked.vm:1:1: unknown command' '    frob' '    ^~~~' \
    'hint: the commands stand in the page of the script language, and in the manual page of vmreplay'
finds "a comment behind a command" 'alloc r a 10 # ten\n' 'checked.vm:1:16: wrong number of words' '    alloc r a 10 # ten' \
    '                   ^~~' 'alloc is a line of 4 or 5 words, and here are 6' 'hint: a comment behind a command: give it a line of its own'
finds "a blank in bytes" 'write r a 0 a b\n' 'checked.vm:1:15: wrong number of words' '    write r a 0 a b' '                  ^' \
    'write is a line of 5 words, and here are 6' 'hint: a blank in BYTES of write, or in an object: %20'
finds "a word that is missing" 'open r best\n' 'checked.vm:1:12: wrong number of words' '    open r best' '               ^' \
    'open is a line of 4 words, and here are 3' \
    'hint: open without its discipline, or resize without its mode: open r best 1, resize r a 10 move'
finds "CR alone at lines' ends" 'open r best 1\rfree r a\r' 'checked.vm:1:20: wrong number of words' '    open r best 1\rfree r a\r' \
    '                        ^' 'open is a line of 4 words, and here are 6' \
    "hint: the file has CR alone at its lines' ends, so it is one line: tr '\\r' '\\n' < script"
finds "a long line" "# $(printf '%5000s' x)\n" 'checked.vm:1:4097: line too long' "    ...$(printf '%76s' '')..." \
    '                                               ^' \
    "hint: the file has CR alone at its lines' ends, or a long comment: tr '\\r' '\\n' < script; more lines"
if [ -x "$here/../bin/dtrun" ]; then
    finds "a command on a dictionary" 'dict d set r 1\n' 'checked.vm:1:1: unknown command' '    dict d set r 1' '    ^~~~' \
        'hint: a command on a dictionary, with vmreplay: dtrun'
else
    skipped "check: a command on a dictionary: there is no bin/dtrun"
fi

# Each word of a command, made a bad one in turn, is the word that is found.
while IFS= read -r line; do
    : > checked.columns
    : > due.columns
    # shellcheck disable=SC2086
    set -- $line
    n=2
    while [ "$n" -le "$#" ]; do
        echo "$line" | awk -v n="$n" '{ $n = "%"; print }' > checked.vm
        awk -v n="$n" '{ at = 1; for (i = 1; i < n; i++) at += length($i) + 1; print at }' checked.vm >> due.columns
        "$here/check" -p "$programs/dtrun" checked.vm | sed -n '1s/checked.vm:1:\([0-9]*\): .*/\1/p' >> checked.columns
        n=$((n + 1))
    done
    check "check: the column of each word of '$line'" diff due.columns checked.columns
done << 'END'
open r best 1
alloc r a 10 @site
resize r a 10 move
poke r a -1 255
segment r 1:32
dict d set r 1
method d oset
view d e
insert d fig
END

# No bad line.
printf '%s\n' 'open r pool 1' 'alloc r a 10' 'alloc r b 11' 'alloc r c 11' 'free r b' > checked.vm
cat > checked.due << 'END'
checked.vm: no line is bad: lines 5, commands 5, refused 3

checked.vm:3: refused: pool size, 2 in all
    alloc r b 11
hint: the first block of a pool is smaller than a later one: allocate the greatest first

checked.vm:5: refused: no block, 1 in all
    free r b
hint: an earlier alloc of that name was refused: look at the first refusal
END
checked -p "$program" checked.vm
check "check: each reason of a refusal, with its first line" same "$status $(cat checked.out)" "3 $(cat checked.due)"
checked -p "$program" < "$here/../examples/trace.vm"
check "check: a script that is all right" same "$status $(cat checked.out)" "0 standard input: no line is bad: lines 40, commands 39, refused 0"
second
cat > checked.due << 'END'
second.vm: no line is bad: lines 6, commands 4, refused 2

second.vm:5: refused: size, 1 in all
    alloc r b 16777217

second.vm:6: refused: no block, 1 in all
    free r b
hint: an earlier alloc of that name was refused: look at the first refusal
END
checked -p ./second second.vm
check "check: a script of version 2" same "$status $(cat checked.out)" "3 $(cat checked.due)"
checked -p "$program" checked.none
check "check: no such script" same "$status $(cat checked.said)" "2 check: checked.none can't be read"
"$here/check" --hints > checked.hints
sed -n '/^## What a message most likely means/,$p' "$here/../docs/messages.md" | grep '^|' | tail -n +3 > hints.due
check "check: its hints are those of the page of messages" diff hints.due checked.hints
