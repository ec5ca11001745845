# The shell over dtrun.
# shellcheck shell=sh disable=SC2154
if has python3; then
    # entered LINES..: what the shell prints and says of these lines.
    entered() {
        printf '%s\n' "$@" > entered
        "$here/shell" -p "$programs/dtrun" < entered > shell.out 2> shell.said
        status=$?
    }
    entered 'open r best 1' '# a comment' '' 'alloc r a 100' 'dict d oset r 1' 'insert d fig' 'walk d'
    check "shell: a reply for each command" same "$status $(tr '\n' ';' < shell.out) $(cat shell.said)" "0 r open;a 1:32;d open;new fig;1 fig; "
    entered 'open r best 1' 'alloc r a' 'frob' 'alloc r 1 2' 'alloc r a 100'
    check "shell: bad lines are told, and cost nothing" same "$status $(tr '\n' ';' < shell.out) $(tr '\n' ';' < shell.said)" \
        "0 r open;a 1:32; shell: wrong number of words: alloc R X SIZE [@SITE];shell: unknown command;shell: bad name: alloc R X SIZE [@SITE];"
    entered 'vc 2' 'vc 2' 'open r best 18' 'alloc r a 1048576'
    check "shell: the version stands on the first line alone" same "$status $(tr '\n' ';' < shell.out) $(cat shell.said)" \
        "0 2 r open;3 a 1:32; shell: unknown command"
    entered 'open r best 1' 'alloc r a 1' 'alloc r b 1' 'undo' 'alloc r c 1' 'undo 2' 'list' 'undo 2'
    check "shell: undo runs the lines before anew" same "$status $(tr '\n' ';' < shell.out) $(cat shell.said)" \
        "0 r open;a 1:32;b 1:64;taken back: alloc r b 1;c 1:64;taken back: alloc r a 1;taken back: alloc r c 1;open r best 1; shell: undo takes a number from 1 to that of the lines so far"
    rm -f written.dt saved.image
    entered 'open r best 1' 'alloc r b 20' 'write r b 0 hi' 'write written.dt' 'save saved.image' 'write written.dt' 'quit' 'alloc r c 1'
    check "shell: lines and an image are written, and no file that is there" same "$status $(tr '\n' ';' < shell.out) $(cat shell.said) $(tr '\n' ';' < written.dt)" \
        "0 r open;b 1:32;b written 2;saved: saved.image; shell: written.dt can't be written: File exists open r best 1;alloc r b 20;write r b 0 hi;"
    "$programs/vmimage" show saved.image > shell.shown
    check "shell: the image is that of the region" grep -q '^blocks 1 1@1:32+20$' shell.shown
    entered 'help alloc' 'help frob'
    check "shell: help on a command" same "$status $(cat shell.out) $(cat shell.said)" "0 alloc R X SIZE [@SITE] shell: no command frob"
    entered help
    check "shell: help tells each command of dtrun" same "$(sed -n 's/ .*//p' shell.out | sort | head -n 38 | wc -l | tr -d ' ')" 38
    for word in $(awk '/^$/ { exit } { print $1 }' shell.out); do
        printf '%s\n' "$word" | "$programs/dtrun" > /dev/null 2> fault
        grep -q 'unknown command' fault && echo "$word"
    done > shell.unknown
    check "shell: each command that help tells is one of dtrun" same "$(cat shell.unknown)" ""
    "$here/shell" -p "$programs/dtrun" "$here/../examples/list.dt" < /dev/null > shell.out 2> shell.said
    check "shell: behind a script" same "$? $(cat shell.said)" "0 "
    check "shell: the replies to the script" diff "$here/../examples/list.replies" shell.out
    printf 'open r best 1\nfrob\n' > bad.dt
    "$here/shell" -p "$programs/dtrun" bad.dt < /dev/null > shell.out 2> shell.said
    check "shell: behind a script with a bad line" same "$? $(cat shell.said)" "1 shell: bad.dt: line 2: unknown command"
    "$here/shell" -p ./nothing < /dev/null > shell.out 2> shell.said
    check "shell: without its program" same "$? $(cat shell.said)" "2 shell: no program ./nothing"
else
    skipped "the shell: there is no python3"
fi
