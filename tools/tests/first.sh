# First steps: make run, tools/try.sh and tools/unproved.sh, with a kit that only tells how it was called. Its compiler makes a
# program that hands on to the proved one.
# shellcheck shell=sh disable=SC2154
mkdir -p kit/bin kit/toolchain/bin kit/toolchain/lib kit/c
RT_LOG=$dir/rt.log
RT_BUILT=$programs
export RT_LOG RT_BUILT
cat > kit/bin/rt << 'END'
#!/bin/sh
case $1 in
    doc) echo "$(dirname "$(dirname "$0")")/START-HERE.md" ;;
    try)
        echo "${PWD##*/} $*" >> "$RT_LOG"
        if [ "${RT_FAILS-}" = "${PWD##*/}" ]; then echo 'error: it has no main' >&2; exit 1; fi
        at=$(dirname "$(dirname "$0")")
        cd "$(mktemp -d "$at/XXXXXX")" || exit
        echo "${OLDPWD##*/}" > module.bc
        "$at/toolchain/bin/clang" -c module.bc -O0 && "$at/toolchain/bin/clang" -c module.bc -O0 -fsanitize=address
        ;;
esac
END
cat > kit/toolchain/bin/clang << 'END'
#!/bin/sh
module= object=
while [ $# -gt 0 ]; do
    case $1 in
        *.bc) module=$1 ;;
        -o) object=$2 ;;
    esac
    shift
done
[ -z "$object" ] || cp "$module" "$object"
END
cat > kit/toolchain/bin/ld.lld << 'END'
#!/bin/sh
for word do
    case ${before-} in -o) out=$word ;; esac
    case $word in *module.o) name=$(cat "$word") ;; esac
    before=$word
done
printf '#!/bin/sh\nexec "%s/%s" "$@"\n' "$RT_BUILT" "$name" > "$out"
chmod +x "$out"
END
chmod +x kit/bin/rt kit/toolchain/bin/clang kit/toolchain/bin/ld.lld
kit=$dir/kit
first() {
    : > rt.log
    at=$1
    shift
    RT=$kit/bin/rt BIN=$at "$here/try.sh" "$@" > first.out 2> first.said
    status=$?
}
if has make; then
    : > rt.log
    make -s -C "$here/.." run RT="$kit/bin/rt" BIN="$dir/quick" > first.out 2> first.said
    check "make run: status 0, and each program compiled once" same "$? $(sort rt.log | tr '\n' ' ')" "0 dtrun try vmcompare try vmimage try vmreplay try "
    check "make run: it leaves the programs, and says which aren't proved" \
        same "$(ls quick | tr '\n' ' '; tr '\n' ' ' < quick/UNPROVED)" "UNPROVED dtrun vmcompare vmimage vmreplay dtrun vmcompare vmimage vmreplay "
    check "make run: it says what it does, and how long it took" same "$(sed "s/in [0-9]* seconds/in N seconds/; s|$dir/||" first.said)" \
        "$(echo 'compiling vmreplay dtrun vmcompare vmimage, without a proof; this takes two minutes or three on an idle machine'
        echo 'not proved, in quick: vmreplay dtrun vmcompare vmimage, compiled in N seconds'
        for name in vmreplay dtrun vmcompare vmimage; do echo "$name: the program in bin, not proved: make proves it"; done)"
    check "make run: each command stands beside its reply" \
        same "$(grep -c '^alloc heap conf 512  *conf 1:32$' first.out)" 1
    check "make run: two lines of its own end it" \
        same "$(tail -n 2 first.out | cut -c 1-20 | tr '\n' ';')" "The programs are in ;A program of one's o;"
    for target in all run test install; do
        make -s -C "$here/.." "$target" RT=no_such_rt BIN="$dir/nothing" DESTDIR="$dir/nothing" > first.out 2> first.said
        check "make $target without rt: it is told where that comes from" \
            same "$? $(grep -c '^no command no_such_rt: it is that of the Rattle toolchain, whose kit has it ' first.said)" "2 1"
    done
else
    skipped "make run: there is no make"
fi
RT_FAILS=dtrun RT=$kit/bin/rt BIN=$dir/some "$here/unproved.sh" vmreplay dtrun > first.out 2> first.said
check "a program that doesn't compile: it is told with what was said, and the other one is left" \
    same "$? $(cat first.out) $(tr '\n' ';' < first.said) $(cat some/UNPROVED)" "1  error: it has no main;tools/unproved.sh: dtrun wasn't compiled; vmreplay"
"$here/unproved.sh" words > first.out 2> first.said
check "a program that there isn't" same "$? $(cut -d : -f 2 first.said)" "2  there is no program words"

# Scripts of one's own.
mkdir -p now
cp "$programs/vmreplay" "$programs/dtrun" "$programs/vmcompare" "$programs/vmimage" now
printf 'open r best 1\nalloc r a 100\n' > one.vm
printf 'open r best 1\nbad\n' > 'two three.vm'
printf 'open r best 1\ndict d set r 1\n' > four.dt
printf 'alloc t a 100\n' > five.trace
first "$dir/now" one.vm
check "a script by the program in bin: nothing is compiled" \
    same "$status $(cat first.out rt.log) $(cat first.said)" "0 r open
a 1:32 vmreplay: the program in bin, which make proved"
first "$dir/now" five.trace
check "a trace by the program in bin: what is told of it" \
    same "$status $(head -n 2 first.out | tr '\n' ';') $(cat first.said)" "0 live 100;best peak 4096 waste 3996; vmcompare: the program in bin, which make proved"
cp "$here/../examples/fruit.image" .
first "$dir/now" fruit.image
check "an image by the program in bin: what it holds" \
    same "$status $(tail -n 1 first.out) $(cat first.said)" "0 2 apple Plum vmimage: the program in bin, which make proved"
first "$dir/now"
check "the samples by the programs in bin: nothing is compiled" same "$status $(cat rt.log) $(grep -c 'which make proved' first.said)" "0  4"
touch -t 200001010000 now/vmreplay
first "$dir/now" one.vm
check "a source that is newer: the program is compiled, and marked" \
    same "$status $(cat rt.log) $(tail -n 1 first.said) $(cat now/UNPROVED)" "0 vmreplay try vmreplay: the program in bin, not proved: make proves it vmreplay"
first "$dir/more" one.vm four.dt five.trace 'two three.vm'
check "several scripts: each program is compiled once, and the greatest status is that of all" \
    same "$status $(sort rt.log | tr '\n' ' ')" "1 dtrun try vmcompare try vmreplay try "
check "several scripts: each is told by its name" same "$(grep '^==' first.out | tr '\n' ' ')" "== one.vm == two three.vm "
RT=no_such_rt BIN=$dir/nothing "$here/try.sh" one.vm > first.out 2> first.said
check "a script without rt: it is told where that comes from" same "$? $(grep -c ' Rattle toolchain, ' first.said)" "127 1"
"$here/try.sh" missing.vm > first.out 2> first.said
check "a script that isn't there" same "$? $(cat first.said)" "2 tools/try.sh: missing.vm can't be read"
