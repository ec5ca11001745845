# The archive for C: the examples through kb_run, of a C program that is linked with it; and dictionaries beside those of
# Graphviz's libcdt.
# shellcheck shell=sh disable=SC2154
archive=$programs/libkolbista.a
scripts_run() {
    for script in "$here"/../examples/*.vm "$here"/../examples/*.dt; do
        case $script in
            *.vm) tool=0 ;;
            *) tool=1 ;;
        esac
        [ ! -e "${script%.*}.words" ] || continue
        ./kb_script $tool 0 < "$script" > kb.out 2> kb.err
        cmp kb.out "${script%.*}.replies" || return 1
    done
}

# counted NAME FILE FLAG..: a program that is linked with the archive, and whose allocations it counts.
counted() {
    name=$1
    file=$2
    shift 2
    cc -O2 -Wall -Werror -I "$here/../include" -Wl,--wrap=malloc,--wrap=realloc,--wrap=free -o "$name" "$here/tests/$file" \
        "$archive" "$@"
}

# The program with libcdt.
beside() {
    # shellcheck disable=SC2046
    counted kb_beside beside.c $(pkg-config --cflags --libs libcdt)
}

# A script that leaves an image, and one over it, through the archive and through vmimage: the images and the replies.
states_last() {
    "$programs/vmimage" save vm.first < kb.first > vm.out || return 1
    ./kb_state - kb.image1 < kb.first > kb.out || return 1
    cmp vm.first kb.image1 && cmp vm.out kb.out || return 1
    "$programs/vmimage" run vm.first < kb.second > vm.out || return 1
    ./kb_state kb.image1 kb.image2 < kb.second > kb.out || return 1
    cmp vm.first kb.image2 && cmp vm.out kb.out
}

if [ ! -f "$archive" ]; then
    skipped "the archive for C: there is no libkolbista.a beside the programs; make archive makes it"
elif ! has cc; then
    skipped "the archive for C: there is no cc"
elif cc -O2 -Wall -Werror -I "$here/../include" -o kb_script "$here/tests/kb_script.c" "$archive" 2> fault; then
    cc -O2 -Wall -Werror -I "$here/../include" -o kb_first "$here/../examples/run.c" "$archive"
    check "archive: the example in C" same "$(./kb_first; echo "$?")" "$(printf 'r open\na 1:32\na freed\nr closed 1\n0')"
    check "archive: kb_run writes the replies of the examples" scripts_run
    printf 'open r best 1\nalloc r a 100\n' > kb.in
    check "archive: a run that fits exactly" same "$(./kb_script 0 0 22 < kb.in; echo "$?")" "$(printf 'r open\na 1:32\n0')"
    check "archive: a run that doesn't fit" same "$(./kb_script 0 0 5 < kb.in; echo "$?")" "$(printf 'r ope4')"
    printf 'alloc\n' > kb.bad
    check "archive: a line of what is wrong that fits exactly" \
        same "$(./kb_script 0 0 9 40 < kb.bad 2>&1; echo "$?")" "$(printf 'vmreplay: line 1: wrong number of words\n1')"
    check "archive: one that doesn't fit" same "$(./kb_script 0 0 9 39 < kb.bad 2>&1; echo "$?")" 'vmreplay: line 1: wrong number of words4'
    check "archive: no such tool" same "$(./kb_script 2 0 < kb.in; echo "$?")" 2
    if has valgrind; then
        check "archive: no error and no leak" \
            valgrind -q --leak-check=full --error-exitcode=9 ./kb_script 0 3 < kb.in > /dev/null
    else
        skipped "the archive's memory: there is no valgrind"
    fi
    cc -O2 -Wall -Werror -I "$here/../include" -o kb_image "$here/tests/kb_image.c" "$archive"
    fruit=$here/../examples/fruit.image
    check "archive: an image is sound" same "$(./kb_image check < "$fruit" 2>&1; echo "$?")" 0
    check "archive: an image is shown" same "$(./kb_image show < "$fruit" 2>&1)" "$(cat "${fruit%.image}.replies")"
    bytes=$(wc -c < "${fruit%.image}.replies")
    check "archive: what is shown fits exactly" same "$(./kb_image show "$bytes" < "$fruit" > kb.out 2>&1; echo "$?")" 0
    check "archive: what is shown doesn't fit" \
        same "$(./kb_image show "$((bytes - 1))" < "$fruit" 2> kb.err | cmp - "${fruit%.image}.replies" 2>&1 | grep -c EOF; cat kb.err)" \
        "$(printf '1\nvmimage: write failed')"
    head -c 100 "$fruit" > kb.image
    for task in check show; do
        check "archive: an image isn't sound, $task" \
            same "$(./kb_image $task < kb.image 2>&1; echo "$?")" "$(printf 'vmimage: unsound: header\n1')"
        check "archive: the line of that doesn't fit, $task" \
            same "$(./kb_image $task 9 24 < kb.image 2>&1; echo "$?")" 'vmimage: unsound: header4'
    done
    cc -O2 -Wall -Werror -I "$here/../include" -o kb_state "$here/tests/kb_state.c" "$archive"
    cc -O2 -Wall -Werror -I "$here/../include" -o kb_last "$here/../examples/state.c" "$archive"
    check "archive: the example in C of a state that lasts" same "$(./kb_last; echo "$?")" \
        "$(printf 'r open\nd open\nnew fig\nnew pear\nnew apple\nnew fig\n4 apple fig fig pear\n4\n0')"
    printf 'open r best 1\nalloc r a 100\ndict s set r 1\ninsert s fig\n' > kb.first
    printf 'free r b1\ninsert d1 pear\nwalk d1\n' > kb.second
    check "archive: a state lasts as through vmimage" states_last
    bytes=$(wc -c < kb.image2)
    check "archive: an image that fits exactly" same "$(./kb_state kb.image1 kb.image3 "$bytes" < kb.second > kb.out; echo "$?")" 0
    check "archive: an image that doesn't fit" \
        same "$(./kb_state kb.image1 kb.image3 "$((bytes - 1))" < kb.second > kb.out; echo "$?"; wc -c < kb.image3)" "$(printf '4\n%s' "$((bytes - 1))")"
    check "archive: a line is wrong that is run over an image" \
        same "$(./kb_state kb.image1 kb.image3 < kb.bad 2>&1; echo "$?"; wc -c < kb.image3)" "$(printf 'vmimage: line 1: wrong number of words\n7\n0')"
    check "archive: no region is left" same "$(./kb_state - kb.image3 < /dev/null 2>&1; echo "$?")" "$(printf 'vmimage: no region\n8')"
    check "archive: an image isn't sound that a script is run over" \
        same "$(./kb_state kb.image kb.image3 < kb.second 2>&1; echo "$?")" "$(printf 'vmimage: unsound: header\n1')"
    counted kb_fails kb_fails.c
    check "archive: each allocation fails in turn where an image is made" ./kb_fails
    if has valgrind; then
        check "archive: no error and no leak where an image is made" \
            valgrind -q --leak-check=full --error-exitcode=9 ./kb_fails
    fi
    if ! has pkg-config || ! pkg-config --exists libcdt; then
        skipped "the archive beside Graphviz's libcdt: there is no libcdt"
    elif beside; then
        for method in set bag oset obag stack queue; do
            check "archive: 100,000 lines on a dictionary, $method, answered as libcdt does" \
                ./kb_beside $method 100000 20000 1
            check "archive: each allocation fails in turn, $method" ./kb_beside $method 60 12 2 fail
        done
        if has valgrind; then
            check "archive: no error and no leak beside libcdt" \
                valgrind -q --leak-check=full --error-exitcode=9 ./kb_beside oset 2000 300 3
            check "archive: no error and no leak where allocations fail" \
                valgrind -q --leak-check=full --error-exitcode=9 ./kb_beside set 40 12 4 fail
        fi
    else
        check "archive: a C program is linked with libcdt" false
    fi
else
    cat fault
    check "archive: a C program is linked" false
fi
