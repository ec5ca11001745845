# The page on which a script is stepped through.
# shellcheck shell=sh disable=SC2154
if has python3; then
    # paged PROGRAM SCRIPT: the page of a script, and what is said.
    paged() {
        "$here/page" -p "$programs/$1" "$2" > page.html 2> page.said
        status=$?
    }
    # What a browser shows behind each click on the button for the next line, beside the replies: the objects of a dictionary at
    # each 'walk' of one that views none, and the number of blocks at each 'blocks'. The title tells how many were looked at.
    cat > page.js << 'END'
let looked = 0, wrong = 0;
const heading = (what, name) => [...document.querySelectorAll("h2")].find(h => h.textContent.startsWith(what + " " + name + ","));
for (let k = 0; k < DATA.lines.length; k++) {
  document.getElementById("next").click();
  const words = DATA.lines[k].split(/\s+/), reply = DATA.replies[k].split(" ");
  if (document.getElementById("where").textContent !== "behind line " + (k + 1) + " of " + DATA.lines.length) wrong++;
  if (reply[0] === "refused:") continue;
  const h = heading(words[0] === "walk" ? "dictionary" : "region", words[1]);
  if (words[0] === "walk" && !h.textContent.includes("views")) {
    const next = h.nextElementSibling, drawn = next.tagName === "svg"
      ? [...next.querySelectorAll("text")].sort((a, b) => a.getAttribute("x") - b.getAttribute("x")) : [...next.querySelectorAll(".object")];
    looked++;
    if (drawn.map(e => e.textContent).join(" ") !== reply.slice(1).join(" ")) wrong++;
  } else if (words[0] === "blocks") {
    let boxes = 0;
    for (let e = h.nextElementSibling; e && e.className === "segment"; e = e.nextElementSibling) boxes += e.children.length;
    looked++;
    if (boxes !== +reply[1]) wrong++;
  }
}
document.getElementById("back").click();
document.getElementById("script").children[0].click();
if (document.getElementById("slider").value !== "1") wrong++;
document.title = "looked at " + looked + ", wrong " + wrong;
END
    # clicked: the title behind all clicks.
    clicked() {
        { sed 's#</script></body></html>##' page.html; cat page.js; echo '</script></body></html>'; } > clicked.html
        timeout 120 "$browser" --headless --no-sandbox --disable-gpu --user-data-dir="$dir/browser" --dump-dom "file://$dir/clicked.html" 2> browser.out |
            sed -n 's/.*<title>\([^<]*\)<.*/\1/p' | head -n 1
    }
    for name in list.dt order.dt queue.dt set.dt view.dt pool.vm trace.vm; do
        case $name in
            *.dt) paged dtrun "$here/../examples/$name" ;;
            *) paged vmreplay "$here/../examples/$name" ;;
        esac
        check "page of $name: status 0" same "$status $(cat page.said)" "0 "
        check "page of $name: it needs no network" same "$(grep -c 'https\{0,1\}://[^w]' page.html)" 0
        if [ -n "$browser" ]; then
            case $name in
                list.dt) due="looked at 3, wrong 0" ;;
                order.dt) due="looked at 5, wrong 0" ;;
                queue.dt) due="looked at 5, wrong 0" ;;
                set.dt) due="looked at 4, wrong 0" ;;
                view.dt) due="looked at 1, wrong 0" ;;
                pool.vm) due="looked at 1, wrong 0" ;;
                *) due="looked at 0, wrong 0" ;;
            esac
            check "page of $name: what a browser shows at each line is what is replied" same "$(clicked)" "$due"
        fi
    done
    [ -n "$browser" ] || skipped "what a browser shows of a page: there is no browser"
    # Trees: what stands left of a node is before it, in order of keys, whatever was splayed.
    awk 'BEGIN {
        print "open r best 9"
        print "dict d oset r 1"
        for (i = 1; i <= 60; i++) { seed = (seed * 1103 + 12345) % 1000003; print "insert d k" seed % 90; if (i % 5 == 0) print "walk d"; if (i % 7 == 0) print "delete d k" seed % 90 }
        print "walk d"
    }' > page.dt
    paged dtrun page.dt
    check "page of a tree: status 0" same "$status $(cat page.said)" "0 "
    [ -z "$browser" ] || check "page of a tree: a browser shows its objects in order" same "$(clicked)" "looked at 13, wrong 0"
    # What can't be shown.
    awk 'BEGIN { print "open r best 1"; for (i = 0; i < 2000; i++) print "#" }' > long.vm
    paged vmreplay long.vm
    check "page of too many lines: it is told" same "$status $(cat page.said)" "1 page: the script has 2,001 lines, and a page at most 2,000: head -n 2000 gives the first of them"
    printf 'open r best 1\nfrob\n' > bad.vm
    paged vmreplay bad.vm
    check "page of a bad line: it is told" same "$status $(cat page.said)" "1 page: vmreplay: line 2: unknown command"
    paged vmreplay nothing.vm
    check "page of no script: it is told" same "$status $(cat page.said)" "2 page: nothing.vm can't be read: No such file or directory"
    printf 'vc 2\nopen r best 18\nalloc r a 1048576\nblocks r\n' > second.vm
    paged vmreplay second.vm
    check "page of a script of version 2" same "$status $(grep -c '"minus":\[\],"segments":\["1:1052672"\]' page.html)" "0 1"
else
    skipped "the page of a script: there is no python3"
fi
