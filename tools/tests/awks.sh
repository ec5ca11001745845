# The tools under each awk, where numbers have decimal commas: what they write and say is what they do under this machine's own
# awk in the locale C, to the byte.
# shellcheck shell=sh disable=SC2154
mkdir awks
printf '%s\n' 'open r best 9' 'alloc r a 1000 @main' 'alloc r b 2000 @read' 'alloc r c 500' 'free r b' 'resize r a 1200 move' \
    '# site d is d<int>(char)' 'alloc r d 16777217 @d' 'align r d 64 64' 'alloc r e 300 @d' 'free r e' > awks/sites.vm
awk 'BEGIN {
    print "open r best 9"
    print "open s pool 2"
    for (i = 1; i <= 250; i++) print "alloc r b" i " " 1 + i * 7919 % 3000 " @s" i % 9
    for (i = 1; i <= 250; i += 3) print "free r b" i
    for (i = 1; i <= 50; i++) print "alloc s c" i " 70"
}' > awks/many.vm
printf 'open r best 1\nalloc r \303\274\t4k\377\n' > awks/bad.vm
printf '# %5000s\n' x > awks/long.vm
printf '\357\273\277open r best 1\n' > awks/marked.vm
printf '# no command\n' > awks/plain.vm
printf '%s\n' '= Start' '@ ./prog:(main+0x1d)[0x11b1] + 0x55c790c7b4a0 0x64' '@ ./prog:[0x1203] < 0x55c790c7b4a0' \
    '@ ./prog:[0x1203] > 0x7fffffffffff 0x1388' '@ ./prog:(a_function_with_a_name_of_more_than_32_bytes+0x1)[0x12d9] + 0xffffffffffffffff 0x1000001' \
    '@ ./prog:(a_function_with_a_name_of_more_than_32_bytes+0x1)[0x12d9] + 0xfffffffffffffffe 0xfffff' '@ ./prog:[0x1226] - 0x1' > awks/mtrace.calls
printf '%s\n' 'prog->malloc(5)  = 0x56284214c2a0' 'prog->calloc(3, 7)  = 0x56284214c330' 'prog->realloc(0x56284214c2a0, 5000)  = 0x56284214c350' \
    'prog->realloc(0x56284214c330, 18446744073709550616) = 0' > awks/ltrace.calls

# tell NAME COMMAND..: what a command writes, what it says and its status, in the folder of this awk.
tell() {
    name=$1
    shift
    "$@" > "$into/$name" 2> "$into/$name.said" < /dev/null
    echo "status $?" >> "$into/$name.said"
}

# All of the tools, into a folder.
tell_all() {
    into=$dir/awks/$1
    mkdir "$into"
    for method in best pool debug; do
        tell "layout.$method" "$here/tests/layout" "$method" 3000
        tell "picture.$method" "$here/picture" -m "$method" "$into/layout.$method"
        tell "overview.$method" "$here/picture" -o -t "$method & <$method>" "$into/layout.$method"
    done
    tell picture.sites "$here/picture" -p "$program" awks/sites.vm
    tell picture.many "$here/picture" -p "$program" -r r awks/many.vm
    tell picture.pool "$here/picture" -p "$program" -r s -n 350 awks/many.vm
    tell picture.trace "$here/picture" -p "$program" -n 34 "$here/../examples/trace.vm"
    tell picture.lists "$here/picture" -p "$programs/dtrun" -n 5 "$here/../examples/set.dt"
    tell curve.sites "$here/curve" -p "$program" awks/sites.vm
    tell curve.many "$here/curve" -p "$program" -a awks/many.vm
    tell curve.stack "$here/curve" -p "$program" -s -n 7 awks/many.vm
    tell curve.bad "$here/curve" -p "$program" awks/bad.vm
    tell sites.sites "$here/sites" -p "$program" awks/sites.vm
    tell sites.many "$here/sites" -p "$program" -n 5 awks/many.vm
    for tool in picture curve sites; do
        tell "$tool.none" "$here/$tool" -p "$program" -r q awks/many.vm
        tell "$tool.marked" "$here/$tool" -p "$program" awks/marked.vm
        tell "$tool.plain" "$here/$tool" -p "$program" awks/plain.vm
    done
    tell ways.array "$here/ways" -p "$compare" "$here/../examples/array.trace"
    tell ways.nodes "$here/ways" -p "$compare" -n 7 "$here/../examples/nodes.trace"
    for script in sites bad long; do tell "check.$script" "$here/check" -p "$program" "awks/$script.vm"; done
    for form in mtrace ltrace; do tell "from.$form" "$here/from" "$form" "awks/$form.calls"; done
    ! has cc || { compiled live && tell record.refused "$here/record" -p "$program" -d 16 live.vm -- ./live 1100 1000; }
}
compare=$programs/vmcompare
tell_all here

# Under each that is there.
commas=de_DE.UTF-8
if ! locale -a 2> /dev/null | grep -qi '^de_DE\.utf-\{0,1\}8$'; then
    skipped "the tools where numbers have decimal commas: there is no locale $commas"
    commas=C
fi
for other in mawk gawk original-awk busybox; do
    if ! has "$other"; then
        skipped "the tools under $other: there is none"
        continue
    fi
    mkdir "awks/bin-$other"
    printf '#!/bin/sh\nexec %s "$@"\n' "$(command -v "$other")$([ "$other" != busybox ] || echo ' awk')" > "awks/bin-$other/awk"
    chmod +x "awks/bin-$other/awk"
    (
        PATH=$dir/awks/bin-$other:$PATH
        LC_ALL=$commas
        export PATH LC_ALL
        tell_all "$other"
    )
    check "the tools under $other, in the locale $commas: as under the machine's own awk, in C" diff -r "awks/here" "awks/$other"
done
