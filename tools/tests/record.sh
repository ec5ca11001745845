# What is recorded.
# shellcheck shell=sh disable=SC2154
record=$here/record
can_record=no
if has cc; then
    can_record=yes
    for name in sizes threads closes many sites wraps live closed; do compiled "$name" || exit 1; done
    for name in early slow; do preloaded "$name" || exit 1; done
else
    skipped "all that is recorded: there is no cc"
fi

sizes() {
    # Sizes.
    "$record" sizes.vm -- ./sizes
    check "sizes: the program sees its calls answered and errno kept" same "$?" 0
    grep -v '^# sizes, process' sizes.vm > sizes.lines
    check "sizes: each of its calls is the line that is expected" diff "$here/tests/sizes.lines" sizes.lines
    check "sizes: the script runs to its end, nothing refused" runs sizes.vm

    # Calls that come before the recording is ready.
    LD_PRELOAD=$dir/early.so "$record" early.vm -- ./sizes
    check "early calls: they are answered, and so is the program" same "$?" 0
    {
        printf '%s\n' 'open r best 9' 'alloc r b1 1 @later' 'free r b1' 'alloc r b1 333 @later' 'free r b1'
        tail -n +2 "$here/tests/sizes.lines"
    } > early.lines
    grep -v '^# sizes, process' early.vm > early.got
    check "early calls: they are in no line, a block that grows later is" diff early.lines early.got
}

many() {
    # More blocks than a region can have.
    "$record" -q many.vm -- ./many
    check "1,000,005 live blocks: status 0" same "$?" 0
    check "1,000,005 live blocks: 1,000,001 lines of alloc and of free" \
        same "$(lines alloc many.vm) $(lines free many.vm)" "1000001 1000001"
    check "1,000,005 live blocks: a comment for each of the others, its resizing and its end" \
        same "$(grep -c ' of [0-9]* bytes: ' many.vm)" 12
    awk '$1 == "alloc" { bad += $3 in live; live[$3]; if (++n > most) most = n; split($3, w, "b"); if (w[2] > top) top = w[2] }
        $1 == "free" { bad += !($3 in live); delete live[$3]; n-- }
        END { print bad + 0, most + 0, top + 0 }' many.vm > many.got
    check "1,000,005 live blocks: at most 1,000,000 are live in the script, under names to b1000000" \
        same "$(cat many.got)" "0 1000000 1000000"
    rm -f many.vm
}

# Threads and fork. What the C library allocates for threads is taken from a run with no rounds. With glibc the threads share
# one arena and keep no freed blocks of their own, so that an address goes from one thread to another at once.
threads() {
    name=$1
    preload=$2
    rounds=$3
    GLIBC_TUNABLES=glibc.malloc.arena_max=1:glibc.malloc.tcache_count=0
    export GLIBC_TUNABLES
    LD_PRELOAD=$preload "$record" none.vm -- ./threads 0 > none
    check "$name: status 0 with no rounds" same "$?" 0
    LD_PRELOAD=$preload "$record" threads.vm -- ./threads "$rounds" > counts
    check "$name: status 0 with $rounds rounds, eight threads and 20 children" same "$?" 0
    unset GLIBC_TUNABLES
    read -r allocs resizes frees live bytes < counts
    check "$name: $allocs lines of alloc, as the program counted" \
        same "$(lines alloc threads.vm)" "$((allocs + $(lines alloc none.vm)))"
    check "$name: $resizes lines of resize" same "$(lines resize threads.vm)" "$((resizes + $(lines resize none.vm)))"
    check "$name: $frees lines of free, and none of the children" \
        same "$(lines free threads.vm)" "$((frees + $(lines free none.vm)))"
    check "$name: the script runs to its end, nothing refused" runs threads.vm
    left none.vm > none.left
    read -r none_live none_bytes < none.left
    check "$name: $live blocks with $bytes bytes are left, as the program counted" \
        same "$(left threads.vm)" "$((live + none_live)) $((bytes + none_bytes))"
    check "$name: the children wrote no script" same "$(ls threads.vm.* 2> /dev/null)" ""
    check "$name: a comment for each child" same "$(grep -c '^# fork: ' threads.vm)" 20
}

started() {
    # Programs that the program starts.
    "$record" shell.vm -- sh -c './sizes; exit 7'
    check "a started program: the status is that of the first one" same "$?" 7
    set -- shell.vm.*
    check "a started program: it writes one script of its own" same "$#" 1
    grep -v '^# sizes, process' "$1" > sizes.lines
    check "a started program: the lines in it are those that are expected" diff "$here/tests/sizes.lines" sizes.lines
    check "a started program: the first one's script runs to its end" runs shell.vm
    check "a started program: its own script runs to its end" runs "$1"
    echo mine > shell.vm.7
    "$record" shell.vm -- true
    check "an earlier recording: its scripts beside OUT are gone, and no other file is" same "$(echo shell.vm.*)" shell.vm.7
    "$record" exec.vm -- sh -c 'exec ./sizes'
    grep -v '^# sizes, process' exec.vm > sizes.lines
    check "a program that becomes another: the script is that of the last one" diff "$here/tests/sizes.lines" sizes.lines
}

in_the_way() {
    # A program that is in the way of the recording.
    "$record" closes.vm -- ./closes own
    check "closed files and a limit of 0 bytes for files: the program goes on" same "$?" 0
    check "closed files: its own file holds what it wrote alone" same "$(cat own)" own
    check "closed files: 101 blocks before the limit and 100 behind it are recorded" same "$(lines alloc closes.vm)" 201
    check "closed files: the script runs to its end" runs closes.vm
    (ulimit -f 8 && "$record" limit.vm -- ./threads 3000 > counts.limit) 2> fault
    check "a limit of 8 blocks for files: the program goes on, and the status is 124" same "$? $(wc -l < counts.limit)" "124 1"
    check "a limit of 8 blocks for files: it is told, with the program's status" \
        same "$(cat fault)" "record: $dir/limit.vm ends before its program did (status 0): its file has no room for more"
    check "a limit of 8 blocks for files: the script's last line tells it" \
        same "$(tail -n 1 limit.vm)" "# the recording stops here: its file has no room for more"
    check "a limit of 8 blocks for files: 4,096 bytes at most are written, and 4,000 at least" \
        test "$(wc -c < limit.vm)" -le 4096 -a "$(wc -c < limit.vm)" -ge 4000
    check "a limit of 8 blocks for files: the script runs to its end" runs limit.vm
    (ulimit -f 8 && "$record" limit.vm -- sh -c './threads 3000; exit 6' > counts.limit) 2> fault
    check "a limit of 8 blocks for files: of a started program it is told too" \
        same "$? $(sed 's/.*limit.vm.[0-9]* //' fault)" "124 ends before its program did (status 6): its file has no room for more"
    (ulimit -f 1 && "$record" limit.vm -- echo run > limit.out) 2> fault
    check "a limit of 1 block for files: it is told, and the program isn't run" \
        same "$? $(cat fault limit.out)" "2 record: $dir/limit.vm has no room for 1,024 bytes"
    mkdir -p small
    if has unshare && unshare -rm mount -t tmpfs -o size=32k none small 2> /dev/null; then
        unshare -rm sh -c 'mount -t tmpfs -o size=32k none small && "$1" small/vm -- ./threads 3000 > counts.limit
            echo "$?" > status; cp small/vm full.vm' sh "$record" 2> fault
        check "a full disk: the program goes on, and the status is 124" same "$(cat status) $(wc -l < counts.limit)" "124 1"
        check "a full disk: the script's last line tells it" \
            same "$(tail -n 1 full.vm)" "# the recording stops here: its file has no room for more"
        check "a full disk: 32,768 bytes at most are written, and 32,000 at least" \
            test "$(wc -c < full.vm)" -le 32768 -a "$(wc -c < full.vm)" -ge 32000
        check "a full disk: the script runs to its end" runs full.vm
    else
        skipped "a full disk: none can be made here"
    fi
    # shellcheck disable=SC2016
    "$record" killed.vm -- sh -c './sizes & wait; kill -9 $$' 2> /dev/null
    check "a killed program: its script runs to its end" runs killed.vm
    check "a killed program: its script has no blank lines" same "$(grep -c '^$' killed.vm)" 0
    # shellcheck disable=SC2016
    "$record" stopped.vm -- sh -c 'kill -9 $$' 2> /dev/null
    check "a killed program: the status is that of the signal" same "$?" 137
    "$record" out/x -- echo run 2> fault
    check "a missing folder of OUT is told, and the program isn't run" same "$? $(cat fault)" "2 record: no folder $dir/out"
    ln -s none/here dangling
    "$record" dangling -- echo run > made.out 2> fault
    check "an OUT that can't be made is told, and the program isn't run" \
        same "$? $(cat fault made.out)" "2 record: $dir/dangling can't be written"
    while IFS='|' read -r words says; do
        # shellcheck disable=SC2086
        "$record" $words > said.out 2> fault
        check "wrong words, '$words': what is wrong stands in a line" \
            same "$? $(cat said.out fault)" "2 record: $says; record --help prints the usage"
    done << 'END'
|no file OUT and no program are told
out.vm|no -- stands between the file out.vm and a program
out.vm echo run|no -- stands between the file out.vm and a program
out.vm --|no program stands behind --
-- echo run|no file OUT stands in front of --
-z|no option -z
-z out.vm -- echo run|no option -z
-m|-m wants a word behind it
END
    ln -s "$record" linked
    ./linked linked.vm -- ./live 1 1
    check "through a symbolic link record finds its library" same "$? $(head -n 1 linked.vm)" "0 open r best 9"
}

nothing() {
    # Programs that leave no lines.
    if printf 'int main(void) { return 0; }\n' | cc -static -o static -x c - 2> /dev/null; then
        "$record" static.vm -- ./static 2> fault
        check "a static program: it is said that nothing was recorded, with status 125" \
            same "$? $(grep -c '^record: ./static wrote no line (status 0)' fault)" "125 1"
    else
        skipped "a static program: cc links none here"
    fi
    if printf 'int main(void) { return 0; }\n' | cc -fsanitize=address -o sanitised -x c - 2> /dev/null; then
        "$record" sanitised.vm -- ./sanitised 2> fault
        check "a program with a sanitiser: it is said that nothing was recorded, with status 125" \
            same "$? $(grep -c '^record: ./sanitised wrote no line' fault)" "125 1"
    else
        skipped "a program with a sanitiser: cc makes none here"
    fi
    cc -O0 -fno-builtin -o mine -x c - << 'END'
#include <stddef.h>
static char bytes[4096];
void *malloc(size_t size) { return size <= sizeof bytes ? bytes : NULL; }
void free(void *p) { (void)p; }
int main(void) { free(malloc(10)); return 3; }
END
    printf 'int main(void) { return 0; }\n' | cc -o idle -x c -
    for name in mine:3 idle:0; do
        "$record" empty.vm -- "./${name%:*}" 2> fault
        check "a program without a call to record, ${name%:*}: it is told, with status 125" same "$? $(cat fault)" \
            "125 record: no call of ./${name%:*} is in $dir/empty.vm (status ${name#*:}): it allocates nothing, or it has an allocator of its own"
    done
    "$record" -t empty.trace -- ./idle 2> fault
    check "a program without a call to record: of a trace it is told too" same "$? $(grep -c '^record: no call of ./idle is in ' fault)" "125 1"
    printf '#include <stdlib.h>\nint main(void) { free(malloc(20000000)); return 0; }\n' | cc -O0 -fno-builtin -o great -x c -
    "$record" great.vm -- ./great 2> fault
    check "a program all of whose blocks are too great for a script: its comments are a recording" same "$? $(cat fault)" "0 "
    "$record" missing.vm -- ./missing 2> fault
    check "a missing program has status 127 and the shell's line alone" same "$? $(wc -l < fault)" "127 1"
}

sites() {
    # Who allocated.
    "$record" -m profile sites.vm -- ./sites
    check "sites: the status is 0" same "$?" 0
    { cat sites.vm; echo 'profile r'; } | "$program" | tail -n 1 | tr ' ' '\n' | grep = | sort > sites.rows
    check "sites: blocks, bytes and peaks of each function, as the program calls them" diff "$here/tests/sites.rows" sites.rows
    check "sites: each is a name of the script language" runs sites.vm
    strip -o stripped sites 2> /dev/null && "$record" -m profile stripped.vm -- ./stripped
    if [ -s stripped.vm ]; then
        check "sites: a program without symbols has module and offset" \
            same "$(grep -c '@stripped_0x[0-9a-f]*$' stripped.vm)" "$(lines alloc stripped.vm)"
    else
        skipped "a program without symbols: there is no strip"
    fi
    "$record" --no-sites none.vm -- ./sites
    check "sites: --no-sites leaves them out" same "$(grep -c '@\|^# site .* is ' none.vm)" 0

    # Functions that are looked through.
    "$record" -w xmalloc -w xrealloc -w copy -w xcalloc wraps.vm -- ./wraps 2> fault
    check "-w: a function that no call came from is told" same "$? $(cat fault)" "0 record: no call came from xcalloc"
    check "-w: the sites are the functions that asked, as often as they did" \
        same "$(sites_of wraps.vm)" "5 deep 1 make_less 2 make_line 1 make_plain 3 make_word"
    check "-w: each that is looked through has a comment" \
        same "$(sed -n 's/^# looked through: //p' wraps.vm | tr '\n' ' ')" "xmalloc copy xrealloc "
    "$record" -w copy wraps.vm -- ./wraps 2> fault
    check "-w: a function that calls the allocator by another one alone isn't looked through" \
        same "$? $(sites_of wraps.vm); $(cat fault)" "0 1 make_plain 10 xmalloc 1 xrealloc; record: no call came from copy"
    "$record" -w xmalloc -w deep -w copy -w make_word wraps.vm -- ./wraps
    check "-w: one that calls itself, and four that call one another" \
        same "$(sites_of wraps.vm)" "8 main 2 make_line 1 make_plain 1 xrealloc"
    cc -O2 -fno-builtin -fomit-frame-pointer -o wraps2 "$here/tests/wraps.c"
    "$record" -w xmalloc -w xrealloc -w copy wraps.vm -- ./wraps2
    check "-w: without frame pointers too" same "$(sites_of wraps.vm)" "5 deep 1 make_less 2 make_line 1 make_plain 3 make_word"

    # Names that are cut.
    name=$(sed -n 's/^# site \(.*\) is a_function_with_a_name_of_more_than_32_bytes$/\1/p' sites.vm)
    check "a long name is a front and a hash, told whole in front of its first use" \
        same "$(grep -n "$name" sites.vm | cut -d : -f 2 | tr '\n' ';')" \
        "# site $name is a_function_with_a_name_of_more_than_32_bytes;alloc r b5 33 @$name;"
    check "a name without its first characters is told whole too" grep -qx '# site underscored is _underscored' sites.vm

    # Libraries that go.
    for name in first second; do
        cc -O0 -fno-builtin -shared -fPIC -DALLOCATES="alloc_$name" -DWANTED="$((1000 + ${#name}))" -o "$name.so" "$here/tests/plugin.c"
    done
    "$record" closed.vm -- ./closed ./first.so alloc_first goes ./second.so alloc_second goes ./first.so alloc_first stays > same
    check "dlclose: a library in another's place has sites of its own" \
        same "$? $(sed -n 's/^alloc r b[0-9]* \(100[56]\) @/\1 /p' closed.vm | tr '\n' ' ')" \
        "0 1005 alloc_first 1006 alloc_second 1005 alloc_first "
    grep -q same same || skipped "dlclose: no library came to stand in another's place"

    # C++.
    if ! has c++ || ! c++ -std=c++17 -O0 -o new "$here/tests/new.cc" 2> /dev/null; then
        skipped "the sites of C++: there is no c++"
        return
    fi
    "$record" new.vm -- ./new
    for call in '4321 owner new' '1234 owners new[]' '4322 quiet new(nothrow)' '1235 quiets new[](nothrow)'; do
        # shellcheck disable=SC2086
        set -- $call
        site=$(sed -n "s/^alloc r b[0-9]* $1 @//p" new.vm)
        check "C++: the site of operator $3 is who called it" same "$site" "Z${#2}$2v"
        check "C++: its readable name stands in a comment" grep -qxF "# site $site is $2()" new.vm
    done
    for type in long char; do
        echo "shop::part* shop::make_a_part_of_the_whole<shop::part>(shop::part*, int, $type)"
    done > parts
    sed -n 's/^# site \(ZN4shop[A-Za-z0-9_]*\) is \(.*\)/\2/p' new.vm > parts.got
    check "C++: long names that begin alike are two sites, each told whole" diff parts parts.got
    check "C++: these two names" same "$(sed -n 's/^alloc r b[0-9]* 50 @//p' new.vm | sort -u | awk 'length == 32' | wc -l)" 2
    check "C++: the script runs to its end" runs new.vm
    "$record" -q -m last last.vm -- ./new
    check "C++: the site of operator new with an alignment, in a region without align" \
        same "$(sed -n 's/^alloc r b[0-9]* 512 @//p' last.vm)" Z4widev
    "$record" -w shop::make_a_part_of_the_whole new.vm -- ./new
    check "C++: a function is looked through by its readable name" same "$(sites_of new.vm | grep -o '[0-9] main')" "2 main"
    c++ -O0 -o own "$here/tests/own.cc"
    "$record" own.vm -- ./own
    check "C++: operators new of the program's own are looked through" \
        same "$(sed -n 's/^alloc r b[0-9]* \(10[123]\) @/\1 /p' own.vm | tr '\n' ' ')" \
        "101 Z4asksv 102 Z9asks_manyv 103 Z12asks_quietlyv "
    c++ -O0 -shared -fPIC -o plugin.so "$here/tests/plugin.cc"
    "$record" plugin.vm -- ./closed ./plugin.so allocates stays
    check "C++: a library that a program of C loads has its operators" \
        same "$? $(sed -n 's/^alloc r b[0-9]* \(777\|8\) @allocates/\1/p' plugin.vm | tr '\n' ' ')" "0 777 8 "
}

# The sites that a script has, each behind the number of its lines.
sites_of() {
    awk '$1 == "alloc" { n[substr($5, 2)]++ } END { for (site in n) print n[site], site }' "$1" | LC_ALL=C sort -k 2 | tr '\n' ' ' | sed 's/ $//'
}

options() {
    # Region, method and discipline.
    "$record" -r heap -m debug -d 1 options.vm -- ./sizes
    check "options: the script opens the region of them" same "$(head -n 1 options.vm)" "open heap debug 1"
    check "options: in a debug region align is alloc, with a comment, and nothing is refused" runs options.vm
    check "options: that comment" same "$(grep -c ': a region of this method has no align$' options.vm)" 2
    check "options: a method that is none" same "$("$record" -m bset options.vm -- true 2> /dev/null; echo $?)" 2
    check "options: a region's name that is none" same "$("$record" -r 9 options.vm -- true 2> /dev/null; echo $?)" 2
    for discipline in x 0 19 99 9x 00000000099; do
        "$record" -d "$discipline" options.vm -- echo run > options.out 2> fault
        check "options: discipline $discipline is none, and the program isn't run" \
            same "$? $(cat options.out fault)" "2 record: no discipline $discipline: it is a number from 1 to 18"
    done
    words=$(awk 'BEGIN { for (i = 1; i <= 65; i++) printf " -w f%d", i }')
    # shellcheck disable=SC2086
    check "options: 65 functions to look through" same "$("$record" $words options.vm -- echo run 2> /dev/null; echo $?)" 2
    for words in '-s 0' '-s 13' '-s x' '-s 2 -d 12' '-s 2 -d 0' '-w' '-s'; do
        # shellcheck disable=SC2086
        check "options: $words" same "$("$record" $words options.vm -- echo run 2> /dev/null; echo $?)" 2
    done
}

# Scripts of version 2.
versions() {
    "$record" -q -2 second.vm -- ./sizes
    check "version 2: the first line of the script says so" same "$? $(head -n 1 second.vm)" "0 vc 2"
    tail -n +2 second.vm | grep -v '^# sizes, process' > second.lines
    check "version 2: the other lines are those of version 1" diff "$here/tests/sizes.lines" second.lines
    "$program" < second.vm > second.out 2> fault
    check "version 2: it runs to its end, nothing refused, and each reply has a number" \
        same "$? $(cat fault) $(grep -c 'refused' second.out) $(grep -vc '^[0-9]* ' second.out)" "0  0 0"
    "$record" -q -2 started.vm -- sh -c './sizes'
    set -- started.vm.*
    check "version 2: so does that of a started program" same "$# $(head -n 1 "$1")" "1 vc 2"
    "$record" -2 started.vm -- true
    check "version 2: what an earlier recording left beside it is gone" same "$(ls started.vm.* 2> /dev/null)" ""
    "$record" -t -2 second.trace -- true 2> fault
    check "version 2: a trace has none" same "$? $(cat fault)" "2 record: a trace has no version: -2 isn't for it"
}

# What is refused of a script.
refusals() {
    printf '#include <stdlib.h>\nint main(void) { void *a = malloc(10), *b = malloc(20); free(a); free(b); return 0; }\n' |
        cc -O0 -fno-builtin -o fifo -x c -
    told="commands are refused when it is run, the first in line 5:"
    "$record" -p "$program" -m last refused.vm -- ./fifo 2> fault
    check "in a last region: the refused commands are told" \
        same "$? $(cat fault)" "0 record: $dir/refused.vm: 1 of 5 $told not last"
    "$record" -p "$program" -m pool refused.vm -- ./sites 2> fault
    check "in a pool: the refused commands are told" \
        same "$? $(cat fault)" "0 record: $dir/refused.vm: 7 of 11 $told pool size"
    "$record" -p "$dir/none" -m pool refused.vm -- ./sites 2> fault
    check "in a pool: without vmreplay it is told that they aren't counted" same "$? $(cat fault)" \
        "0 record: $dir/refused.vm: commands may be refused when it is run; there is no $dir/none to count them"
    "$record" -p "$program" -q -m pool refused.vm -- ./sites 2> fault
    check "with -q nothing is told" same "$? $(cat fault)" "0 "
    "$record" -p "$program" -c refused.vm -- ./sites 2> fault
    check "with -c, of a script of which nothing is refused, nothing is told" same "$? $(cat fault)" "0 "
    # The replies to a script of version 2 have numbers.
    printf '%s\n' '2 r open' '4 b1 1:32' '5 b2 1:64' '6 refused: not last' '7 b2 freed' > fifo.replies
    printf '#!/bin/sh\ncat > /dev/null\ncat %s/fifo.replies\n' "$dir" > numbered
    chmod +x numbered
    "$record" -p ./numbered -2 -m last refused.vm -- ./fifo 2> fault
    check "of version 2, in a last region: the refused commands are told" \
        same "$? $(cat fault)" "0 record: $dir/refused.vm: 1 of 5 ${told% 5:} 6: not last"
    "$record" -p "$program" -2 -m last refused.vm -- ./fifo 2> fault
    check "of version 2, in a last region, by vmreplay: the same" \
        same "$? $(cat fault)" "0 record: $dir/refused.vm: 1 of 5 ${told% 5:} 6: not last"
    "$record" -p "$program" -d 16 refused.vm -- ./live 1100 1000 2> fault
    check "over a discipline whose bytes end: what is refused is told" same "$? $(sed 's/: [0-9]* of .*in line [0-9,]*/:/' fault)" \
        "0 record: $dir/refused.vm:: no segment"
    # Blocks of 60,000 bytes take a segment each, of which a region has 1,023.
    "$record" -p "$program" refused.vm -- ./live 1100 60000 2> fault
    check "1,100 blocks of 60,000 bytes: the refused are told without a word" same "$? $(sed 's/first in.*:/first:/' fault)" \
        "0 record: $dir/refused.vm: 77 of 1,101 commands are refused when it is run, the first: too many segments (-s spreads the blocks over more regions)"
    check "1,100 blocks of 60,000 bytes: a line tells when they take much" \
        same "$(grep -c '^# here the blocks of r take a quarter of the segments that a region can have$' refused.vm)" 1
    check "the manual page of record says so" grep -q 'too many segments' "$here/../man/vmrecord.1"
}

# Blocks in more than one region.
spread() {
    "$record" -s 3 -r heap spread.vm -- ./live 5 100
    {
        printf 'open heap%s best %s\n' '' 9 2 10 3 11
        printf 'alloc heap%s b%s 100 @main\n' '' 1 2 1 3 1 '' 2 2 2
    } > spread.lines
    grep -v '^#' spread.vm > spread.got
    check "three regions: each block is in the one whose blocks take least" diff spread.lines spread.got
    check "three regions: the script runs to its end" runs spread.vm
    "$record" -p "$program" -c -s 2 spread.vm -- ./live 1100 60000 2> fault
    check "two regions: of 1,100 blocks of 60,000 bytes none is refused" same "$? $(cat fault)" "0 "
    check "two regions: 550 blocks are in each" same "$(grep -c '^alloc r ' spread.vm) $(grep -c '^alloc r2 ' spread.vm)" "550 550"
    "$record" -s 4 spread.vm -- ./sizes
    check "four regions: a block is resized and freed in its own" runs spread.vm
    check "four regions: the commands are those of one" same \
        "$(sed -n 's/^\([a-z]*\) r[234]\{0,1\} b[0-9][0-9]*/\1/p' spread.vm)" \
        "$(sed -n 's/^\([a-z]*\) r b[0-9][0-9]*/\1/p' "$here/tests/sizes.lines")"
}

# Traces for vmcompare: the same calls without open, align and sites.
traces() {
    "$record" -t -r heap sizes.trace -- ./sizes
    check "a trace: the status is 0" same "$?" 0
    sed -e 1d -e 's/ @.*//' -e 's/^align \(r b[0-9]*\) \([0-9]*\) .*/alloc \1 \2/' -e 's/^\([a-z]*\) r b/\1 heap b/' "$here/tests/sizes.lines" > trace.lines
    grep -v '^# sizes, process\|: a trace has no align$' sizes.trace > trace.got
    check "a trace: each call is the line that is expected" diff trace.lines trace.got
    check "a trace: a comment tells each block whose alignment is left out" same "$(grep -c ' at a multiple of [0-9]*: a trace has no align$' sizes.trace)" 2
    "$programs/vmcompare" < sizes.trace > trace.told 2> fault
    check "a trace: vmcompare takes it as it is" same "$? $(grep -c 'peak' trace.told) $(cat fault)" "0 3 "
    "$record" -t --sites sites.trace -- ./sites
    check "a trace with sites: as many as in a script" same "$? $(grep -c '^alloc.* @' sites.trace)" "0 $("$record" -q sites.vm -- ./sites; grep -c '^alloc.* @' sites.vm)"
    "$programs/vmcompare" < sites.trace > trace.told 2> fault
    check "a trace with sites: vmcompare takes it as it is" same "$? $(cat fault)" "0 "
    "$record" --trace shell.trace -- sh -c './sizes'
    set -- shell.trace.*
    check "a trace of a started program: it has one of its own" same "$# $(grep -c '^open' "$1")" "1 0"
    "$record" -t shell.trace -- true
    check "a trace: what an earlier one left beside it is gone" same "$(ls shell.trace.* 2> /dev/null)" ""
    for words in '-m best' '-d 9' '-s 2' '-c' '-p x'; do
        # shellcheck disable=SC2086
        "$record" -t $words sizes.trace -- true 2> fault
        check "a trace: no $words" same "$? $(cat fault)" "2 record: a trace opens no region: -m, -d, -s, -c and -p aren't for it"
    done
}

if [ "$can_record" = yes ]; then
    sizes
    traces
many
threads "threads over a slow realloc" "$dir/slow.so" 500
threads threads "" 3000
    started
    in_the_way
    nothing
    sites
    options
    versions
    refusals
    spread
fi
