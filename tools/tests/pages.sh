# Pages, the tools' own help, and what a tool says of wrong words.
# shellcheck shell=sh disable=SC2154
for page in "$here"/../man/*.1; do
    check "$(basename "$page"): no line is wider than 80 columns" same "$(awk 'length > 80' "$page")" ""
    if has mandoc; then
        check "$(basename "$page"): shown by mandoc, no line is wider either" \
            same "$(mandoc -Tascii -O width=78 "$page" | col -b | awk 'length > 80')" ""
        check "$(basename "$page"): mandoc finds no fault" same "$(mandoc -Tlint -W warning "$page" 2>&1 | grep -v 'operating system')" ""
    fi
done
has mandoc || skipped "that the manual pages have no faults: there is no mandoc"
tools="record picture curve sites ways check from"
if has python3; then tools="$tools shell page"; else skipped "the usage of shell and page: there is no python3"; fi
for tool in $tools; do
    "$here/$tool" --help > help.out 2> fault
    check "$tool --help is its usage" same "$? $(head -n 1 help.out | cut -d ' ' -f 1-2) $(cat fault)" "0 usage: $tool "
    if [ -c /dev/full ]; then
        "$here/$tool" --help > /dev/full 2> fault
        check "$tool --help on a full disk: it is told" same "$? $(cat fault)" "2 $tool: the output can't be written"
    fi
    "$here/$tool" --help >&- 2> fault
    check "$tool --help without an output: it is told" same "$? $(cat fault)" "2 $tool: the output can't be written"
    check "$tool --help: no line is wider than 80 columns" same "$(awk 'length > 80' help.out)" ""
    check "the manual page of $tool tells each of its options" sh -c '
        for option in $(grep -o "^  -[a-z0-9]" help.out | tr -d " -"); do grep -q "^.It Fl $option" "$1" || exit 1; done' sh "$here/../man/vm$tool.1"
done

# What is printed and lost.
lost() {
    tool=$1
    shift
    if [ -c /dev/full ]; then
        "$here/$tool" "$@" > /dev/full 2> fault
        check "$tool $* on a full disk: it is told" same "$? $(cat fault)" "2 $tool: the output can't be written"
    fi
    "$here/$tool" "$@" >&- 2> fault
    check "$tool $* without an output: it is told" same "$? $(cat fault)" "2 $tool: the output can't be written"
}
printf '%s\n' 'open r best 1' 'alloc r a 100 @one' > lost.vm
printf 'open r best 1\nfrob\n' > bad.vm
lost check --hints
lost check -p "$program" lost.vm
lost check -p "$program" bad.vm
for tool in picture curve sites; do lost "$tool" -p "$program" lost.vm; done
lost ways -n 1 -p "$programs/vmcompare" "$here/../examples/array.trace"
{ "$here/check" --hints 2> fault; } | true
check "a reader that ends early: nothing is said" same "$(cat fault)" ""
"$here/../bench/edits.sh" > edits.out 2>&1
check "bench/edits.sh without a word tells its usage" same "$? $(head -c 6 edits.out)" "2 usage:"
"$here/../bench/edits.sh" vc_model > edits.out 2>&1
check "bench/edits.sh of a crate without edits says so" same "$? $(cat edits.out)" "2 bench/edits.sh: vc_model has no edits in bench/edits"

# What the documents show of the source.
if has python3; then
    "$here/theorem" 2> fault
    check "the definitions that the documents show are those of the source" same "$? $(cat fault)" "0 "
else
    skipped "that the definitions that the documents show are those of the source: there is no python3"
fi
