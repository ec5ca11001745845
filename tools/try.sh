#!/bin/sh
# Runs scripts by the programs in bin/; what isn't there, or is older than a source, is compiled first, without a proof:
#   tools/try.sh [SCRIPT..]
# dtrun runs a script NAME.dt, vmcompare a trace NAME.trace, vmimage shows an image NAME.image, and vmreplay runs any other;
# where none is named each runs its sample, as make run does. RT and BIN stand for the command rt and the folder bin. The
# status is the greatest of the runs; without rt, where it is needed, it is 127.
set -u
here=$(cd "$(dirname "$0")/.." && pwd) || exit 1
bin=${BIN:-$here/bin}
case $bin in
    /*) ;;
    *) bin=$here/$bin ;;
esac
for script in "$@"; do
    if [ ! -r "$script" ] || [ -d "$script" ]; then
        echo "tools/try.sh: $script can't be read" >&2
        exit 2
    fi
done
greatest=0

say() {
    echo "$1" >&2
}

# Whether bin/ has the program, and no source of any crate is newer.
is_there() {
    [ -x "$bin/$1" ] && [ -z "$(find "$here/crates" \( -name out -prune \) -o \( -name '*.rt' -o -name '*.antt' \) -newer "$bin/$1" -print | head -n 1)" ]
}

# Compiles those of these programs that aren't there.
have() {
    for name do
        shift
        is_there "$name" || set -- "$@" "$name"
    done
    [ $# -gt 0 ] || return 0
    if [ $# -eq 1 ]; then minutes='a minute or two'; else minutes='two minutes or three on an idle machine'; fi
    say "compiling $*, without a proof; this takes $minutes"
    RT=${RT:-rt} BIN=$bin "$here/tools/unproved.sh" "$@" || exit
}

# by_bin NAME SCRIPT: the program on a script.
by_bin() {
    if [ "$1" = vmimage ]; then "$bin/vmimage" show "$2"; else "$bin/$1" < "$2"; fi
    status=$?
    [ $status -le $greatest ] || greatest=$status
}

# run NAME SCRIPT..: the scripts of one program.
run() {
    name=$1
    shift
    if grep -qx "$name" "$bin/UNPROVED" 2> /dev/null; then
        say "$name: the program in bin, not proved: make proves it"
    else
        say "$name: the program in bin, which make proved"
    fi
    for script do
        [ $# -eq 1 ] || echo "== $script"
        by_bin "$name" "$script"
    done
}

# A program's sample script, each command with its reply; a trace, and what is told of it; what is shown of an image.
sample() {
    if [ "$1" = vmimage ]; then
        run vmimage "$here/crates/vmimage/data/fruit.image"
        return
    fi
    run "$1" "$here/crates/$1/stdin" > "$replies"
    if [ "$1" = vmcompare ]; then
        cat "$here/crates/$1/stdin" "$replies"
        return
    fi
    LC_ALL=C awk -v replies="$replies" '
        /^[ \t]*(#|$)/ { print; next }
        { reply = ""; getline reply < replies; printf "%-36s  %s\n", $0, reply }' "$here/crates/$1/stdin"
}

if [ $# -eq 0 ]; then
    have vmreplay dtrun vmcompare vmimage
    replies=$(mktemp) || exit 1
    trap 'rm -f "$replies"' EXIT
    trap 'exit 1' HUP INT TERM
    for name in vmreplay dtrun vmcompare vmimage; do
        sample "$name"
        echo
    done
    if [ "$greatest" -eq 0 ]; then
        echo "The programs are in $bin. A script of one's own: tools/try.sh SCRIPT, or $bin/vmreplay < SCRIPT"
        echo "A program of one's own in a region: tools/record OUT -- PROGRAM; a proof of all: make"
    else
        echo "A program didn't run its sample: status $greatest"
    fi
    exit "$greatest"
fi

# program_of SCRIPT: the name of the program that runs it.
program_of() {
    case $1 in
        *.dt) echo dtrun ;;
        *.trace) echo vmcompare ;;
        *.image) echo vmimage ;;
        *) echo vmreplay ;;
    esac
}

# of NAME SCRIPT..: runs those of the scripts that are the program's, in the order in which they are named.
of() {
    name=$1
    shift
    for script do
        shift
        [ "$(program_of "$script")" != "$name" ] || set -- "$@" "$script"
    done
    [ $# -eq 0 ] || run "$name" "$@"
}

# shellcheck disable=SC2046
have $(for script do program_of "$script"; done | sort -u)
of vmreplay "$@"
of dtrun "$@"
of vmcompare "$@"
of vmimage "$@"
exit "$greatest"
