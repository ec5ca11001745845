# Scripts of what mtrace and ltrace wrote.
# shellcheck shell=sh disable=SC2154
from=$here/from

# from_of FORM: from's script of from.in, without its first comment, and what it says, in from.got and from.said.
from_of() {
    "$from" "$@" from.in > from.vm 2> from.said
    from_status=$?
    sed 2d from.vm > from.got
}

cat > from.in << 'END'
= Start
@ ./prog:(main+0x1d)[0x11b1] + 0x55c790c7b4a0 0x64
@ /usr/bin/a prog:[0x11ee] + 0x55c790c7b510 0x15
@ ./prog:[0x1203] < 0x55c790c7b4a0
@ ./prog:[0x1203] > 0x55c790c7b530 0x1388
@ [0x1216] + 0x55c790c7b4a0 0xa
@ ./prog:[0x1226] - 0x55c790c7b4a0
@ ./prog:[0x1226] - 0x55c790c7bfff
@ ./prog:(_Z5maskedv-0x12)[0x123f] + 0x55c790c7b2a0 0
@ ./prog:[0x1254] < 0x55c790c7b2a0
@ ./prog:[0x1254] > 0x55c790c7c8e0 0x28
@ ./prog:[0x1269] < 0x55c790c7c8e0
@ ./prog:[0x1269] > 0x7ffae765b010 0x1312d00
@ ./prog:[0x127e] < 0x7ffae765b010
@ ./prog:[0x127e] > 0x7ffae765b010 0x8
@ ./prog:[0x12b4] ! 0x55c790c7b510 0xfffffffffffffc18
@ ./prog:[0x12c9] + (nil) 0x7fffffffffffffff
@ ./prog:(a_function_with_a_name_of_more_than_32_bytes+0x1)[0x12d9] + 0x55c790c7b000 0x1000000
@ ./prog:(a_function_with_a_name_of_more_than_32_beans+0x1)[0x12d9] + 0x55c790c7b100 0x1000001
@ ./prog:(a_function_with_a_name_of_more_than_32_beans+0x1)[0x12d9] + 0x55c790c7b000 0x1

frob
@ ./prog:[0x1300] < 0x55c790c7b510
@ ./prog:[0x1300] - 0x55c790c7b530
@ ./prog:[0x1300] > 0x55c790c7b510 0x1
@ ./prog:[0x1310] < 0x55c790c7b511
@ ./prog:[0x1310] > 0x55c790c7b511 0x1
@ ./prog:[0x1310] < 0x55c790c7b511
= End
END
"$from" mtrace from.in > from.vm 2> from.said
check "mtrace: the status tells that lines weren't taken" same "$?" 1
cat > from.lines << 'END'
open r best 9
alloc r b1 100 @main
# site a_prog_0x11ee is a prog_0x11ee
alloc r b2 21 @a_prog_0x11ee
resize r b1 5000 move
alloc r b3 10 @unknown
free r b3
# malloc of 0 bytes: a script has no such block
alloc r b3 40 @prog_0x1254
free r b3
# realloc of 20000000 bytes: a script has no such block
alloc r b3 8 @prog_0x127e
# site a_function_with_a_name__HASH is a_function_with_a_name_of_more_than_32_bytes
alloc r b4 16777216 @a_function_with_a_name__HASH
# malloc of 16777217 bytes: a script has no such block
free r b4
# site a_function_with_a_name__HASH is a_function_with_a_name_of_more_than_32_beans
alloc r b4 1 @a_function_with_a_name__HASH
free r b1
alloc r b1 1 @prog_0x1310
END
sed '2d; s/_name__[0-9a-f]\{8\}/_name__HASH/' from.vm > from.got
check "mtrace: each line is the one that is expected" diff from.lines from.got
check "mtrace: names that begin alike are two sites" \
    same "$(grep -o '@a_function_with_a_name__[0-9a-f]*' from.vm | sort -u | wc -l | tr -d ' ')" 2
cat > from.lines << 'END'
from: line 8: no block is known at 0x55c790c7bfff
from: line 9: 0 bytes: a script has no such block
from: line 13: 20000000 bytes: a script has no such block
from: line 19: 16777217 bytes: a script has no such block
from: line 20: a block stands at 0x55c790c7b000, whose end no line tells; the script frees it here
from: line 22: no line of mtrace
from: line 23: the realloc has no second line
from: line 25: the realloc has no first line
from: line 27: no block is known at 0x55c790c7b511; the script allocates one here
from: line 28: the realloc has no second line
from: 10 of 29 lines were not taken
END
check "mtrace: each line that isn't taken is told" diff from.lines from.said
check "mtrace: the script runs to its end" runs from.vm

cat > from.in << 'END'
prog->malloc(5)                                  = 0x56284214c2a0
[0x5558f38291b1] prog->malloc(100)               = 0x56284214c2c0
[pid 12] /usr/lib/libfoo-1.so->calloc(3, 7)      = 0x56284214c330
12 prog->realloc(0x56284214c2c0, 5000)           = 0x56284214c350
prog->realloc(nil, 10)                           = 0x56284214d6e0
prog->free(0x56284214d6e0)                       = <void>
prog->free(0)                                    = <void>
prog->malloc(0)                                  = 0x56284214c400
prog->realloc(0x56284214c330, 18446744073709550616) = 0
prog->realloc(0x56284214c330, 0)                 = 0
malloc(6)                                        = 0x56284214c330
prog->memalign(64, 50)                           = 0x562842150000
prog->aligned_alloc(16, 50)                      = 0x562842151000
prog->malloc(7 <unfinished ...>
<... malloc resumed> )                           = 0x562842152000
prog->puts("malloc(1) = 0x5")                    = 2
prog->free(0x1)                                  = <void>
--- SIGCHLD (Child exited) ---
+++ exited (status 0) +++
END
cat > from.lines << 'END'
open heap best 1
alloc heap b1 5 @prog
alloc heap b2 100 @prog
# site libfoo_1.so is libfoo-1.so
alloc heap b3 21 @libfoo_1.so
resize heap b2 5000 move
alloc heap b4 10 @prog
free heap b4
# malloc of 0 bytes: a script has no such block
free heap b3
alloc heap b3 6 @unknown
align heap b4 50 64
alloc heap b5 50 @prog
END
from_of -r heap -d 1 ltrace
check "ltrace: the status tells that lines weren't taken" same "$from_status" 1
check "ltrace: each line is the one that is expected" diff from.lines from.got
cat > from.lines << 'END'
from: line 8: 0 bytes: a script has no such block
from: line 14: a call in two parts
from: line 15: a call in two parts
from: line 16: no line of ltrace
from: line 17: no block is known at 0x1
from: 5 of 19 lines were not taken
END
check "ltrace: each line that isn't taken is told" diff from.lines from.said
check "ltrace: the script runs to its end" runs from.vm
head -n 6 from.in > from.some
"$from" -n -m pool ltrace < from.some > from.vm 2> from.said
check "ltrace: from standard input, all lines are taken" same "$? $(cat from.said)" "0 "
check "ltrace: without sites, for a pool" same "$(sed -n '1p;3p' from.vm | tr '\n' ';')" "open r pool 9;alloc r b1 5;"
printf '= Start\n= End\n' > from.in
from_of mtrace
check "mtrace: that there is no call is told" same "$from_status $(cat from.said from.got)" "1 from: no line is of a call
open r best 9"
for words in '' frob 'mtrace a b' '-m bset mtrace' '-r 9 mtrace' '-d x mtrace' 'mtrace missing.calls' 'mtrace .'; do
    # shellcheck disable=SC2086
    "$from" $words < /dev/null > from.vm 2> from.said
    check "vmfrom $words: the words are wrong" same "$? $(wc -c < from.vm | tr -d ' ')" "2 0"
done
if [ -c /dev/full ]; then
    "$from" ltrace from.some > /dev/full 2> from.said
    check "a script that can't be written" same "$? $(grep -c "^from: the output can't be written\$" from.said) $(grep -c '^cat' from.said)" "2 1 0"
else
    skipped "a script that can't be written: there is no /dev/full"
fi

# What the two write on this machine.
if has cc; then
    printf '%s\n' '#include <mcheck.h>' '#include <stdlib.h>' 'int main(void) { void *a, *b; mtrace(); a = malloc(100);' \
        'b = calloc(3, 7); a = realloc(a, 500000); free(b); b = malloc(9); muntrace(); free(b); return a == b; }' > traced.c
    cc -w -O0 -fno-builtin -o traced traced.c
    printf '%s\n' 'open r best 9' 'alloc r b1 100' 'alloc r b2 21' 'resize r b1 500000 move' 'free r b2' 'alloc r b2 9' > from.lines
    rm -f from.in
    MALLOC_TRACE=from.in LD_PRELOAD=libc_malloc_debug.so.0 ./traced 2> fault
    if [ -s from.in ]; then
        from_of -n mtrace
        check "what mtrace writes here: each line is taken" same "$from_status $(cat from.said)" "0 "
        check "what mtrace writes here: the script" diff from.lines from.got
    else
        skipped "what mtrace writes here: it writes nothing"
    fi
    if has ltrace && ltrace -o from.in -e malloc+free+realloc+calloc ./traced 2> fault; then
        from_of -n ltrace
        echo 'free r b2' >> from.lines
        check "what ltrace writes here: each line is taken" same "$from_status $(cat from.said)" "0 "
        check "what ltrace writes here: the script" diff from.lines from.got
    else
        skipped "what ltrace writes here: there is no ltrace, or it can't trace"
    fi
else
    skipped "what mtrace and ltrace write here: there is no cc"
fi
