# vmimage on an image of a few dictionaries, on the same with damages, and on the images of tools/tests/images.
# shellcheck shell=sh disable=SC2154
image=$programs/vmimage
fruit=$here/../examples/fruit.image

# spoilt AT BYTES..: spoilt.image, the image with other bytes at some places, each told as by printf.
spoilt() {
    cp "$fruit" spoilt.image
    while [ $# -gt 0 ]; do
        # shellcheck disable=SC2059
        printf "$2" | dd of=spoilt.image bs=1 seek="$1" conv=notrunc 2> dd.said
        shift 2
    done
}

# unsound PART AT BYTES..: with these bytes that part is told, whether the image is checked or shown.
unsound() {
    part=$1
    shift
    spoilt "$@"
    for task in check show; do
        check "vmimage $task: bytes at $1 are others" \
            same "$("$image" "$task" spoilt.image 2>&1 > image.out; echo "status $?, out $(wc -c < image.out | tr -d ' ')")" \
            "vmimage: unsound: $part
status 1, out 0"
    done
}

check "vmimage check: an image is sound" same "$("$image" check "$fruit")" sound
unsound header 0 X
unsound header 8 '\003'
unsound 'segment 1' 116 '\000'
unsound 'segment 1' 192 '\000'
unsound tree 12 '\000\000\000\000'
unsound 'dictionary 0' 28 '\007'
unsound 'dictionary 0' 32 '\007'
unsound 'dictionary 0' 36 '\003'
# The list's first holder leads to itself.
unsound 'dictionary 0' 204 '\003'
unsound 'dictionary 1' 72 '\001'
# The root of the ordered set is its own right child.
unsound 'dictionary 1' 396 '\011'
# The ordered set has no objects, so that its holders are of none.
unsound rest 72 '\000' 76 '\000\000\000\000' 96 '\000\000\000\000'
# What nothing asks of: the first bytes of the segment, and a byte behind a block's size.
spoilt 100 X 173 X
check "vmimage check: bytes that are of no account" same "$("$image" check spoilt.image)" sound
"$image" show spoilt.image > image.out
check "vmimage show: nor are they shown" cmp image.out "${fruit%.image}.replies"
"$here/picture" image.out > image.svg 2> fault
check "what vmimage shows is drawn" same "$? $(cat fault)" "0 "
check "what vmimage shows is drawn: its blocks by their numbers" same "$(grep -c '>blocks: 5, ' image.svg)" 1

# An image that is saved: that of the script beside the example, byte for byte, in the place of what was there before.
printf older > saved.image
check "vmimage save: what the script prints" \
    same "$("$image" save saved.image < "${fruit%.image}.save" 2>&1)" \
    "$("$programs/dtrun" < "${fruit%.image}.save")"
check "vmimage save: the image of the example, and no other file" \
    same "$(cmp saved.image "$fruit" && echo saved*)" saved.image
printf other > saved.image.new
check "vmimage save: a file that stands in the way is left alone" \
    same "$(echo open r best 1 | "$image" save saved.image 2>&1 > image.out; echo "status $? $(cat image.out saved.image.new)")" \
    "vmimage: write failed
status 4 r open
other"
check "vmimage save: and so is the older image" cmp saved.image "$fruit"
rm saved.image.new
check "vmimage save: a script that is refused leaves the older image" \
    same "$(echo frob | "$image" save saved.image 2>&1; echo "status $? $(cmp saved.image "$fruit" && echo saved*)")" \
    "vmimage: line 1: unknown command
status 7 saved.image"

# A script over an image: it goes on where the one before it ended.
printf 'VCIMAGE1\0\0\0\0\0\0\0\0\0\0\0\0' > run.image
check "vmimage run: over an image in which nothing lies" \
    same "$(printf 'dict a oset r 1\ninsert a pear\nalloc r x 9\n' | "$image" run run.image 2>&1; echo "status $?")" \
    "a open
new pear
x 1:96
status 0"
check "vmimage run: over what that left, by the names of the image" \
    same "$(printf 'insert d1 fig\nblocks r\nfree r b1\nwalk d1\n' | "$image" run run.image 2>&1; echo "status $?")" \
    "new fig
blocks 3 *@1:32+36 b1@1:96+9 *@1:128+35
b1 freed
2 fig pear
status 0"
check "vmimage run: the image of that" same "$("$image" show run.image | tail -n 2)" "blocks 2 *@1:32+36 *@1:128+35
2 fig pear"
cp run.image kept.image
check "vmimage run: a script that is refused leaves the older image" \
    same "$(printf 'insert d1 plum\nfrob\n' | "$image" run run.image 2>&1; echo "status $? $(cmp run.image kept.image && ls run*)")" \
    "new plum
vmimage: line 2: unknown command
status 7 run.image"

# The images of tools/tests/images: what each is, the part that is told, or the file in which it stands, and its bytes, as told to
# printf.
awk '
    function number(text, rise, at) {
        if (text !~ /^@/) return text + 0
        at = index(text, ":")
        return substr(text, 2, at - 2) * 1048576 + (substr(text, at + 1) + rise) / 32
    }
    function byte(at, value) {
        if (!(at in was)) was[at] = bytes[at]
        bytes[at] = value
    }
    function put(text, rise, at, value, i) {
        match(text, /[=:]/)
        at = substr(text, 1, RSTART - 1) + rise
        if (substr(text, RSTART, 1) == ":") {
            byte(at, substr(text, RSTART + 1) + 0)
            return
        }
        value = number(substr(text, RSTART + 1), rise)
        for (i = 0; i < 4; i++) {
            byte(at + i, value % 256)
            value = int(value / 256)
        }
    }
    function row(what, told, i, text) {
        for (i = 0; i < size; i++) text = text sprintf("\\%03o", bytes[i])
        print what "|" told "|" text
        for (i in was) bytes[i] = was[i]
        split("", was)
    }
    /^image / { name = substr($0, 7); begun = 1; next }
    !begun || /^#/ || NF == 0 { next }
    $1 == "bytes" {
        size = $2
        for (i = 0; i < size; i++) bytes[i] = 0
        split("86 67 73 77 65 71 69 49", letters, " ")
        for (i = 1; i <= 8; i++) bytes[i - 1] = letters[i]
        next
    }
    $1 == "is" { for (i = 2; i <= NF; i++) put($i, 0); split("", was); next }
    $1 == "each" {
        for (n = 0; n < $2; n++) for (i = 4; i <= NF; i++) put($i, n * $3)
        split("", was)
        next
    }
    {
        told = ""
        changes = ""
        for (i = 1; i <= NF; i++) {
            if ($i ~ /^[0-9]+[=:]/) {
                put($i, 0)
                changes = changes " " $i
            } else told = told (told == "" ? "" : " ") $i
        }
        row(name (changes == "" ? "" : ", with" changes), told)
    }' "$here/tests/images" > images.rows
while IFS='|' read -r what told bytes; do
    case $told in
        'file '*)
            # shellcheck disable=SC2059
            printf "$bytes" > "${told#file }.image"
            continue
            ;;
        sound) due='sound, status 0' ;;
        *) due="vmimage: unsound: $told, status 1" ;;
    esac
    # shellcheck disable=SC2059
    printf "$bytes" > table.image
    "$image" check table.image > image.out 2>&1
    status=$?
    read -r said < image.out
    check "vmimage check: $what: $told" same "$said, status $status" "$due"
done < images.rows

# What some of them hold.
check "vmimage show: blocks without a label, and objects of a byte" same "$("$image" show three.image)" \
    "busy 5 free 0 sbusy 260 sfree 0 mbusy 128 mfree 0 segs 1 extent 448
segments 1 1:448
blocks 5 *@1:32+33 *@1:96+33 *@1:160+33 *@1:224+33 *@1:288+128
2 x %00
1 a
1 b"
check "vmimage show: a block by its tag" same "$("$image" show labelled.image)" \
    "busy 1 free 0 sbusy 40 sfree 0 mbusy 40 mfree 0 segs 1 extent 96
segments 1 3:96
blocks 1 7@3:32+40"
check "vmimage show: a file without a name" same "$("$image" show '' 2>&1; echo "status $?")" "vmimage: read failed
status 3"

# unopened WHY FILE LINE STATUS: no script is run over that image.
unopened() {
    cp "$2.image" older.image
    check "vmimage run: $1" \
        same "$(echo count d1 | "$image" run "$2.image" 2>&1; echo "status $? $(cmp "$2.image" older.image && ls "$2".image*)")" \
        "vmimage: $3
status $4 $2.image"
}
unopened 'a segment of another size than the discipline lends' three 'segment 1: wrong size' 6
unopened 'a part that is unsound is told before that' treeless 'unsound: tree' 1
unopened 'a tag that is too great' great 'wrong tags' 6
unopened 'two blocks with one tag' twice 'wrong tags' 6

# saves WHAT FILE SCRIPT: the image of what the script leaves is that one, byte for byte.
saves() {
    # shellcheck disable=SC2059
    check "vmimage save: $1" same "$(printf "$3" | "$image" save saved.image > image.out 2>&1; echo $?; cmp saved.image "$2.image")" 0
}
printf 'VCIMAGE1\0\0\0\0\0\0\0\0\0\0\0\0' > nothing.image
saves 'a region in which nothing lies' nothing 'open r best 1\n'
saves 'a block' block 'open r best 1\nalloc r a 1\n'
saves 'a block, and behind it a segment that is refused' block 'open r best 13\nalloc r a 1\nalloc r b 2000000\n'
saves 'a set, a queue and an ordered bag' left \
    'open r best 1\ndict s set r 1\ninsert s a\ndict q queue r 1\ninsert q p\ndict o obag r 3\ninsert o b\n'
saves 'the first region that is left open, and no dictionary of another one' nothing \
    'open q best 2\nopen r best 1\nclose q\nopen q best 2\ndict d list q 1\ninsert d x\n'
cp "$fruit" run.image
check "vmimage run: a script without a line leaves the image as it was" \
    same "$("$image" run run.image < /dev/null 2>&1; echo $?; cmp run.image "$fruit")" 0
