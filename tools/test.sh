#!/bin/sh
# Tries the built programs on the runs of tools/tests/runs, and the tools beside this, and says what it checked:
#   tools/test.sh [FOLDER [NAME..]]
# The programs are those of bin/ where no folder is named. What is tried stands in tools/tests/NAME.sh, a file for each tool;
# all of them are read where none is named. It needs awk; what else it uses, tools/needs.sh installs. What is left out for want
# of that is said, and the last line is 'N passed, M failed, K skipped'.
set -u
# What commands print is read here in the words, the order and the numbers of this locale.
LC_ALL=C
export LC_ALL
here=$(cd "$(dirname "$0")" && pwd) || exit 1
programs=${1:-$here/../bin}
[ $# -eq 0 ] || shift
for program in vmreplay dtrun vmcompare vmimage; do
    if [ ! -x "$programs/$program" ]; then
        echo "tools/test.sh: no program $programs/$program: run make first" >&2
        echo '0 passed, 1 failed, 0 skipped'
        exit 1
    fi
done
programs=$(cd "$programs" && pwd)
program=$programs/vmreplay
dir=$(mktemp -d) || exit 1
trap 'rm -rf "$dir"' EXIT
cd "$dir" || exit 1
passed=0
failed=0
skipped=0

# check WHAT COMMAND..: the command's status decides.
check() {
    what=$1
    shift
    if "$@"; then
        echo "ok: $what"
        passed=$((passed + 1))
    else
        echo "FAILED: $what"
        failed=$((failed + 1))
    fi
}

skipped() {
    echo "skipped: $1"
    skipped=$((skipped + 1))
}

has() {
    command -v "$1" > /dev/null
}

same() {
    test "$1" = "$2" || { echo "  $1 is not $2"; false; }
}

# Whether vmreplay runs the script to its end and refuses nothing.
runs() {
    "$program" < "$1" > replies 2> fault || { cat fault; return 1; }
    ! grep refused replies && test ! -s fault
}

# The number of lines with that first word.
lines() {
    awk -v word="$1" '$1 == word { n++ } END { print n + 0 }' "$2"
}

# busy and sbusy at the script's end.
left() {
    { cat "$1"; echo 'stat r'; } | "$program" | awk '$1 == "busy" { blocks = $2; bytes = $6 } END { print blocks, bytes }'
}

# The replies of stat, segments and blocks at a script's end.
drawn() {
    region=$(awk '$1 == "open" { print $2; exit }' "$1")
    { grep -v '^close' "$1"; printf "%s $region\n" stat segments blocks; } | "$program"
}

# Makes second.vm, a script of version 2, and the program second, which prints its replies and those of stat, segments and blocks
# behind it, whatever it is given: each has the number of its line in front. They stand in second.replies.
second() {
    printf '%s\n' 'vc 2' '# one is too great' 'open r best 1' 'alloc r a 100 @main' 'alloc r b 16777217' 'free r b' > second.vm
    cat > second.replies << END
3 r open
4 a 1:32
5 refused: size
6 refused: no block
7 busy 1 free 1 sbusy 100 sfree 3936 mbusy 100 mfree 3936 segs 1 extent 4096
8 segments 1 1:4096
9 blocks 1 a@1:32+100
END
    printf '#!/bin/sh\ncat > /dev/null\ncat %s/second.replies\n' "$dir" > second
    chmod +x second
}

# Whether a browser shows drawn.svg: an empty page, or one that tells a fault, is a smaller one.
shown() {
    timeout 120 "$browser" --headless --no-sandbox --disable-gpu --hide-scrollbars --user-data-dir="$dir/browser" \
        --window-size=1080,1080 --screenshot="$dir/shown.png" "file://$dir/drawn.svg" > browser.out 2>&1
    test "$(wc -c < shown.png)" -gt 20000 || { cat browser.out; false; }
}
browser=$(command -v chromium || command -v chromium-browser || command -v google-chrome)

# compiled NAME: the program of tools/tests/NAME.c, made once.
compiled() {
    [ -x "$1" ] || cc -w -O0 -fno-builtin -o "$1" "$here/tests/$1.c" -lpthread
}

# preloaded NAME: the library NAME.so of tools/tests/NAME.c.
preloaded() {
    [ -f "$1.so" ] || cc -w -O0 -fno-builtin -shared -fPIC -o "$1.so" "$here/tests/$1.c" -ldl
}

# Each file is read by this shell, so that what stands above is there; it begins in the empty folder of the tests.
names=$*
if [ -z "$names" ]; then
    for cases in "$here"/tests/*.sh; do names="$names $(basename "$cases" .sh)"; done
fi
for cases in $names; do
    if [ ! -f "$here/tests/$cases.sh" ]; then
        echo "tools/test.sh: no file tools/tests/$cases.sh" >&2
        failed=$((failed + 1))
        continue
    fi
    # shellcheck source=/dev/null
    . "$here/tests/$cases.sh"
done

echo "$passed passed, $failed failed, $skipped skipped"
test "$failed" -eq 0
