# The runs of the built programs: tools/tests/runs.
# shellcheck shell=sh disable=SC2154
# The runs of the built programs: one run, of one of them behind these words.
judge() {
    judged=$1
    eval "set -- $2"
    sed "s/PROGRAM/$judged/" run.fault > run.err
    given=run.in
    [ "$from" != folder ] || given=$dir
    got_in=got.out
    [ "$to" != full ] || got_in=/dev/full
    : > got.out
    if [ "$from" = closed ]; then
        "$programs/$judged" "$@" <&- > "$got_in" 2> got.err
    else
        "$programs/$judged" "$@" < "$given" > "$got_in" 2> got.err
    fi
    same "$?" "$status" && cmp run.out got.out && cmp run.err got.err
}

# One case, for one of the programs: a run, or one for each line that is an input, or for each of other words.
judge_case() {
    if [ -s run.each ]; then
        while IFS= read -r each; do
            printf '%b\n' "$each" > run.in
            judge "$1" "$words" || { printf '  at %s\n' "$each"; return 1; }
        done < run.each
    elif [ -s run.words ]; then
        while IFS= read -r each; do
            judge "$1" "$each" || { printf '  at %s\n' "$each"; return 1; }
        done < run.words
    else
        judge "$1" "$words"
    fi
}

finish_case() {
    [ -n "$case" ] || return 0
    if [ "$to" = full ] && [ ! -c /dev/full ]; then
        skipped "$case: there is no /dev/full"
        return 0
    fi
    case $who in
        both)
            for name in vmreplay dtrun; do check "$name: $case" judge_case "$name"; done
            ;;
        *) check "$who: $case" judge_case "$who" ;;
    esac
}

begin_case() {
    case=$1
    from=
    to=
    words=
    : > run.in
    : > run.out
    : > run.fault
    : > run.each
    : > run.words
}

# counted BEHIND A B TEXT: the text for each number from A to B, which stands for # in it, and what stands behind each.
counted() {
    awk -v behind="$1" -v a="$2" -v b="$3" -v text="$4" 'BEGIN {
        for (n = a; n <= b; n++) { line = text; gsub(/#/, n, line); printf "%s%s", line, behind }
    }'
}

# lengthened BEHIND N C TEXT: the text, a blank, N times C, and what stands behind.
lengthened() {
    awk -v behind="$1" -v n="$2" -v c="$3" -v text="$4 " 'BEGIN { printf "%s", text; while (n-- > 0) printf "%s", c; printf "%s", behind }'
}

case=
while IFS= read -r line; do
    rest=${line#* }
    case $line in
        'case '*) finish_case; begin_case "$rest" ;;
        'run '*)
            who=${rest%% *}
            words=$(printf '%b' "${rest#"$who"}")
            ;;
        'input '*) from=$rest ;;
        'output '*) to=$rest ;;
        'file '*) printf '%b' "${rest#* }" > "${rest%% *}" ;;
        'status '*) status=$rest ;;
        '< '*) printf '%b\n' "$rest" >> run.in ;;
        '<') echo >> run.in ;;
        '<- '*) printf '%b' "$rest" >> run.in ;;
        'each '*) printf '%s\n' "$rest" >> run.each ;;
        'words '*) printf '%s\n' "$rest" >> run.words ;;
        'long '* | 'long- '* | 'long> '* | 'long>- '* | 'count< '* | 'count> '* | 'count>- '*)
            how=${line%% *}
            first=${rest%% *}
            rest=${rest#* }
            behind='\n'
            [ "$how" = "${how%-}" ] || behind=
            made=lengthened
            [ "$how" = "${how#count}" ] || made=counted
            into=run.in
            [ "$how" = "${how#*>}" ] || into=run.out
            "$made" "$behind" "$first" "${rest%% *}" "${rest#* }" >> "$into"
            ;;
        '> '*) printf '%s\n' "$rest" >> run.out ;;
        '>') echo >> run.out ;;
        '>- '*) printf '%s' "$rest" >> run.out ;;
        '! '*) printf '%s\n' "$rest" >> run.fault ;;
        '') ;;
        # The head tells what stands above.
        *) [ -z "$case" ] || { echo "FAILED: a line of tools/tests/runs: $line"; failed=$((failed + 1)); } ;;
    esac
done < "$here/tests/runs"
finish_case

# Three blocks at the first three offsets that an alignment divides, of which the second is freed: its gap holds a block at
# its offset up to the third one, and no greater one, which goes behind that.
aligned() {
    for align in 32 64 128 256 512 1024 2048 4096; do
        awk -v align="$align" '
            function say(command, reply) { print command > "aligned.in"; print reply > "aligned.due" }
            function placed(name, size, off) { say("align r " name " " size " " align, name " 1:" off) }
            BEGIN {
                say("open r best 1", "r open"); say("alloc r big 30000", "big 1:32"); say("free r big", "big freed")
                placed("p", 16, align); placed("q", 16, 2 * align); placed("w", 16, 3 * align); say("free r q", "q freed")
                placed("a", align - 16, 2 * align); say("free r a", "a freed"); placed("b", align - 15, 4 * align)
            }'
        "$program" < aligned.in > aligned.out || return 1
        cmp aligned.due aligned.out || { echo "  at $align"; return 1; }
    done
}
check 'vmreplay: a gap that a block at an alignment fills to the byte, and one that is a byte too small' aligned

# Every change of a method to another: what a dictionary without regard to the case of letters has then, where b, B and a
# were put into it, and where b, c and a were.
turned() {
    while read -r method into equals apart; do
        for objects in "b B a $equals" "b c a $apart"; do
            # shellcheck disable=SC2086
            set -- $objects
            printf '%s\n' 'open r best 1' "dict d $method r 3" "insert d $1" "insert d $2" "insert d $3" "method d $into" 'walk d' |
                "$programs/dtrun" > turned.out || return 1
            same "$(tail -n 1 turned.out)" "$(echo "$4" | tr _ ' ')" || { echo "  at $method, $into, $1 $2 $3"; return 1; }
        done
    done
}
check 'dtrun: each change of a method' turned << END
set set 2_b_a 3_b_c_a
set bag 2_b_a 3_b_c_a
set oset 2_a_b 3_a_b_c
set obag 2_a_b 3_a_b_c
set list 2_b_a 3_b_c_a
set stack 2_b_a 3_b_c_a
set queue 2_b_a 3_b_c_a
bag set 2_b_a 3_b_c_a
bag bag 3_b_B_a 3_b_c_a
bag oset 2_a_b 3_a_b_c
bag obag 3_a_b_B 3_a_b_c
bag list 3_b_B_a 3_b_c_a
bag stack 3_b_B_a 3_b_c_a
bag queue 3_b_B_a 3_b_c_a
oset set 2_a_b 3_a_b_c
oset bag 2_a_b 3_a_b_c
oset oset 2_a_b 3_a_b_c
oset obag 2_a_b 3_a_b_c
oset list 2_a_b 3_a_b_c
oset stack 2_a_b 3_a_b_c
oset queue 2_a_b 3_a_b_c
obag set 2_a_b 3_a_b_c
obag bag 3_a_b_B 3_a_b_c
obag oset 2_a_b 3_a_b_c
obag obag 3_a_b_B 3_a_b_c
obag list 3_a_b_B 3_a_b_c
obag stack 3_a_b_B 3_a_b_c
obag queue 3_a_b_B 3_a_b_c
list set 2_a_B 3_a_c_b
list bag 3_a_B_b 3_a_c_b
list oset 2_a_B 3_a_b_c
list obag 3_a_B_b 3_a_b_c
list list 3_a_B_b 3_a_c_b
list stack 3_a_B_b 3_a_c_b
list queue 3_a_B_b 3_a_c_b
stack set 2_a_B 3_a_c_b
stack bag 3_a_B_b 3_a_c_b
stack oset 2_a_B 3_a_b_c
stack obag 3_a_B_b 3_a_b_c
stack list 3_a_B_b 3_a_c_b
stack stack 3_a_B_b 3_a_c_b
stack queue 3_a_B_b 3_a_c_b
queue set 2_b_a 3_b_c_a
queue bag 3_b_B_a 3_b_c_a
queue oset 2_a_b 3_a_b_c
queue obag 3_a_b_B 3_a_b_c
queue list 3_b_B_a 3_b_c_a
queue stack 3_b_B_a 3_b_c_a
queue queue 3_b_B_a 3_b_c_a
END

# 100,000 generated commands, of which none is refused, twice.
generated() {
    for time in 1 2; do "$programs/$1" --gen 100000 --seed 7 > "generated.$time" || return 1; done
    cmp generated.1 generated.2 && same "$(head -n 3 generated.1 | tr '\n' ' ')" "lines $2 done $2 refused 0 " &&
        sed -n 4p generated.1 | grep -q '^lent '
}
check 'vmreplay: many generated commands, and the same again' generated vmreplay 100002
check 'dtrun: many generated commands, and the same again' generated dtrun 100004

# In each example line 1 is a comment, where a version may stand.
in_version() {
    sed "1s/.*/vc $1/" "$2" > second.in
    # shellcheck disable=SC2086
    "$programs/$3" $words < second.in > second.out 2> second.err && test ! -s second.err
}
for script in "$here"/../examples/*.vm "$here"/../examples/*.dt; do
    head -n 1 "$script" | grep -q '^#' || continue
    program_of=vmreplay
    [ "${script%.dt}" = "$script" ] || program_of=dtrun
    name=$(basename "$script")
    words=
    [ ! -f "${script%.*}.words" ] || words=$(cat "${script%.*}.words")
    check "$name in version 1, which its line 1 tells" in_version 1 "$script" "$program_of"
    check "$name in version 1: the replies are those without the line" cmp second.out "${script%.*}.replies"
    check "$name in version 2" in_version 2 "$script" "$program_of"
    case $words in
        *--quiet*) check "$name in version 2, quiet: what is written is the same" cmp second.out "${script%.*}.replies" ;;
        *)
            awk '!/^[ \t]*(#|$)/ { print NR }' "$script" | paste -d ' ' - "${script%.*}.replies" > second.due
            check "$name in version 2: the replies are the same behind the numbers of their lines" cmp second.out second.due
            ;;
    esac
done
