# The table of sites.
# shellcheck shell=sh disable=SC2154
sites=$here/sites
table() {
    "$sites" -p "$program" "$@" > table 2> table.said
    status=$?
}

# The rows of a table, as a profile region tells them, by peak.
rows_of_table() {
    tr -d , < "$1" | awk 'NR > 1 && ($1 == "all" || NF < 5) { exit } NR > 1 { print $1 "=" $2 "," $3 "," $4 }' | sort
}

printf '%s\n' 'open r best 9' 'alloc r a 1000 @main' 'alloc r b 2000 @read' 'alloc r c 500' 'align r d 64 64' 'free r b' 'resize r a 1200 move' \
    'alloc r e 300 @main' 'free r e' > table.vm
cat > table.due << 'END'
site          blocks          bytes           peak   share
read               0              0          2,000  56.1 %
main               1          1,200          1,500  28.1 %
-                  2            564            564  15.8 %
all                3          1,764          3,564 100.0 %

Blocks and bytes are those at the end, shares those of the peak, behind line 5.
END
table table.vm
check "sites: status 0" same "$status $(cat table.said)" "0 "
check "sites: the table" diff table.due table
table -n 1 table.vm
check "sites: the others in one row" same "$(sed -n 3p table | tr -s ' ')" "2 others 3 1,764 - 43.9 %"
table < table.vm
check "sites: of standard input" diff table.due table

# Whatever a profile region counts, with resizes, frees and a clear between.
awk 'BEGIN {
    print "open r profile 9"
    for (i = 1; i <= 3000; i++) {
        seed = (seed * 1103 + 12345) % 1000003
        x = seed % 200
        if (i == 2000) { print "clear r"; split("", live) }
        if (!(x in live)) { print "alloc r b" x " " 1 + seed % 700 (seed % 7 ? " @s" seed % 23 : ""); live[x] }
        else if (seed % 3) { print "free r b" x; delete live[x] }
        else print "resize r b" x " " 1 + seed % 900 " move"
    }
}' > counted.vm
{ cat counted.vm; echo 'profile r'; } | "$program" | tail -n 1 | tr ' ' '\n' | grep '=' | sort > counted.rows
table counted.vm
rows_of_table table > table.rows
check "sites: blocks, bytes and peaks are those that the program counts" diff counted.rows table.rows
line=$(sed -n 's/.*behind line \([0-9,]*\)\.$/\1/p' table | tr -d ,)
{ head -n "$line" counted.vm; echo 'profile r'; } | "$program" | tail -n 1 | tr ' ' '\n' |
    awk -F '[=,]' 'NF == 4 { bytes[$1] = $3; all += $3 } END { for (s in bytes) printf "%s %.1f\n", s, 100 * bytes[s] / all }' | sort > peak.due
tr -d , < table | awk 'NR > 1 && $1 == "all" { exit } NR > 1 { print $1, $5 }' | sort > peak.rows
check "sites: the shares are those of the profile at the peak" diff peak.due peak.rows
check "sites: of the greatest peak first" same "$(tr -d , < table | awk 'NR > 2 && $1 == "all" { exit } NR > 2 && $4 > last { bad++ } NR > 1 { last = $4 } END { print bad + 0 }')" 0

# What isn't there, and what was refused.
table -r q table.vm
check "sites: a region that is never opened" same "$status $(cat table.said)" "1 sites: no region q is ever open: the script opens r"
table /dev/null
check "sites: an empty script" same "$status $(cat table.said)" "1 sites: the script opens no region"
printf '\357\273\277open r best 1\nalloc r a 1\n' > marked.vm
table marked.vm
check "sites: a script with a byte order mark" \
    same "$status $(cat table.said)" "1 sites: the script begins with a byte order mark: tail -c +4 leaves its three bytes out"
table table.none
check "sites: no such script" same "$status $(cat table.said)" "2 sites: table.none can't be read"
printf 'open r best 1\nfrob\n' > bad.vm
table bad.vm
check "sites: a bad line" same "$status $(cat table.said)" "1 sites: vmreplay: line 2: unknown command"
printf '%s\n' 'open r pool 1' 'alloc r a 10 @one' 'alloc r b 11 @two' 'alloc r c 5 @two' > refused.vm
table refused.vm
check "sites: what was refused is told, and counts for no site" \
    same "$status $(cat table.said) $(sed -n '2,3p' table | tr -s ' ' | tr '\n' ' ')" \
    "3 sites: 1 of 4 commands was refused, the first at line 3: pool size one 1 10 10 66.7 % two 1 5 5 33.3 % "
check "sites: it is told beneath the table too" same "$(tail -n 1 table)" "1 of 4 commands was refused, the first at line 3: pool size"
printf '%s\n' 'open r best 1' '# site Zvery_long_7 is very::long(name<int, char>)' 'alloc r a 10 @Zvery_long_7' 'alloc r b 9 @short' > whole.vm
table whole.vm
check "sites: the whole name that a recording tells stands behind the row" \
    same "$(sed -n '1,3s/.*\(share\|%\)//p' table | tr '\n' '|')" "  whole name|  very::long(name<int, char>)||"
"$here/curve" -s -p "$program" whole.vm > drawn.svg
check "sites: it stands in the curve of sites" grep -q '>very::long(name&lt;int, char&gt;): at most 10 bytes' drawn.svg

# Several regions: together, and each for itself.
printf '%s\n' 'open r best 1' 'open s pool 2' 'alloc r a 100 @one' 'alloc s a 50 @one' 'alloc s b 40 @two' 'clear r' 'alloc r a 30 @two' \
    'close s' 'alloc s a 1 @one' > regions.vm
rows() {
    table "$@"
    tr -d , < table | awk '/^$/ { exit } NR > 1 { print $1, $2, $3, $4, $5 }' | tr '\n' '|'
}
check "sites: of all regions" same "$(rows regions.vm)" "one 0 0 150 78.9|two 1 30 70 21.1|all 1 30 190 100.0|"
check "sites: of all regions, what was refused" same "$(cat table.said)" "sites: 1 of 9 commands was refused, the first at line 9: no region"
check "sites: of one region" same "$(rows -r r regions.vm)" "one 0 0 100 100.0|two 1 30 30 0.0|all 1 30 100 100.0|"
check "sites: of the other" same "$(rows -r s regions.vm)" "one 0 0 50 55.6|two 0 0 40 44.4|all 0 0 90 100.0|"
check "sites: of the other, what was refused" same "$(cat table.said)" "sites: 1 of 5 commands on region s was refused, the first at line 9: no region"

# What a recording left out of the script.
printf '%s\n' 'open r best 9' 'alloc r a 1000 @main' '# malloc of 100000000 bytes: a script has no such block' \
    '# calloc of 20000000 bytes: a script has no such block' '# free of 100000000 bytes: a script has no such block' 'alloc r c 20 @main' > left.vm
check "sites of what a recording left out" same "$(rows left.vm) $(cat table.said)" \
    "main 2 1020 1020 100.0|all 2 1020 1020 100.0| sites: 2 blocks are in no command, with 20,000,000 bytes at the end and at most 120,000,000 at once"
check "sites of what a recording left out: a line of its own tells it" same "$(tail -n 1 table)" \
    "2 blocks are in no command, with 20,000,000 bytes at the end and at most 120,000,000 at once"

# Version 2.
second
"$sites" -p ./second second.vm > table 2> table.said
check "sites of a script of version 2" same "$? $(sed -n 2p table | tr -s ' ') $(cat table.said)" \
    "3 main 1 100 100 100.0 % sites: 2 of 4 commands were refused, the first at line 5: size"

# Lines of numbers, and two scripts side by side.
table --csv table.vm
check "sites: lines of numbers" same "$status $(tr '\n' ' ' < table)" "0 site,blocks,bytes,peak,at_peak read,0,0,2000,2000 main,1,1200,1500,1000 -,2,564,564,564 "
printf '%s\n' 'open r best 9' 'alloc r a 1000 @main' 'alloc r b 500 @read' 'alloc r c 500' 'alloc r d 700 @new' 'free r a' > changed.vm
cat > table.due << 'END'
site                 before          after         change
read                  2,000            500         -1,500
new                       0            700           +700
-                       564            500            -64
main                  1,000          1,000              0
all                   3,564          2,700           -864

Bytes are those at the peak of each of the two.
END
table -d table.vm changed.vm
check "sites of two scripts: status 0" same "$status $(cat table.said)" "0 "
check "sites of two scripts: what each has, and the change" diff table.due table
table -d -n 1 table.vm changed.vm
check "sites of two scripts: the others in one row" same "$(sed -n 3p table | tr -s ' ')" "3 others 1,564 2,200 +636"
table -d table.vm
check "sites of two scripts, of which one is named: the usage" same "$status $(head -c 12 table.said)" "2 usage: sites"
table -d table.vm /dev/null
check "sites of two scripts, of which one is none" same "$status $(cat table.said)" "1 sites: the script opens no region"
