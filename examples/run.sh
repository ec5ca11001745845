#!/bin/sh
# Runs each script of this folder, *.vm with vmreplay, *.dt with dtrun and *.trace with vmcompare, behind the words in the
# file *.words beside it, if there is one, shows each image *.image with vmimage, and compares what is written with the
# file *.replies; and saves what each script *.save leaves with vmimage, and compares that with the image *.image:
#   examples/run.sh [FOLDER]
# The programs are those of bin/ where no folder is named. The last line is 'N passed, M failed, 0 skipped'.
set -u
here=$(cd "$(dirname "$0")" && pwd) || exit 1
programs=${1:-$here/../bin}
for program in vmreplay dtrun vmcompare vmimage; do
    if [ ! -x "$programs/$program" ]; then
        echo "examples/run.sh: no program $programs/$program: run make first" >&2
        echo '0 passed, 1 failed, 0 skipped'
        exit 1
    fi
done
dir=$(mktemp -d) || exit 1
trap 'rm -rf "$dir"' EXIT
passed=0
failed=0
for script in "$here"/*.vm "$here"/*.dt "$here"/*.trace "$here"/*.image; do
    case $script in
        *.vm) program=vmreplay ;;
        *.trace) program=vmcompare ;;
        *.image) program=vmimage ;;
        *) program=dtrun ;;
    esac
    name=$(basename "${script%.*}")
    words=
    [ ! -e "$here/$name.words" ] || words=$(cat "$here/$name.words")
    if [ "$program" = vmimage ]; then
        "$programs/vmimage" show "$script" > "$dir/out" 2> "$dir/err"
    else
        # Words are parted at blanks.
        # shellcheck disable=SC2086
        "$programs/$program" $words < "$script" > "$dir/out" 2> "$dir/err"
    fi
    status=$?
    if [ "$status" -eq 0 ] && [ ! -s "$dir/err" ] && cmp -s "$here/$name.replies" "$dir/out"; then
        echo "$program $name: $(wc -l < "$dir/out" | tr -d ' ') replies as they stand in $name.replies, status 0, nothing on standard error"
        passed=$((passed + 1))
    else
        echo "$program $name: FAILED, status $status"
        cat "$dir/err"
        diff "$here/$name.replies" "$dir/out"
        failed=$((failed + 1))
    fi
done
for script in "$here"/*.save; do
    name=$(basename "${script%.save}")
    "$programs/vmimage" save "$dir/image" < "$script" > "$dir/out" 2> "$dir/err"
    status=$?
    if [ "$status" -eq 0 ] && [ ! -s "$dir/err" ] && cmp -s "$here/$name.image" "$dir/image"; then
        echo "vmimage $name: the image as it stands in $name.image, status 0, nothing on standard error"
        passed=$((passed + 1))
    else
        echo "vmimage $name: FAILED, status $status"
        cat "$dir/err"
        failed=$((failed + 1))
    fi
done
echo "$passed passed, $failed failed, 0 skipped"
test "$failed" -eq 0 && test "$passed" -gt 0
