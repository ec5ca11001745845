# What is installed.
# shellcheck shell=sh disable=SC2154
if has make; then
    if make -s -C "$here/.." install BIN="$programs" DESTDIR="$dir/root" PREFIX=/usr > made 2>&1; then
        at=$dir/root/usr
        # A line for each folder, so that what is added is easily seen.
        cat > installed.files << END
bin/dtrun bin/vmcompare bin/vmreplay
bin/vmcurve bin/vmpicture bin/vmrecord
bin/vmimage share/man/man1/vmimage.1 share/doc/kolbista/image.md
bin/vmsites share/man/man1/vmsites.1
bin/vmways share/man/man1/vmways.1
bin/vmcheck share/man/man1/vmcheck.1
bin/vmfrom share/man/man1/vmfrom.1
bin/vmshell share/man/man1/vmshell.1
bin/vmpage share/man/man1/vmpage.1
share/doc/kolbista/script.md share/doc/kolbista/compare.md share/doc/kolbista/messages.md
share/man/man1/dtrun.1 share/man/man1/vmreplay.1 share/man/man1/vmcompare.1
share/man/man1/vmcurve.1 share/man/man1/vmpicture.1 share/man/man1/vmrecord.1
END
        if [ -f "$programs/libkolbista.a" ]; then
            echo "include/kolbista.h lib/libkolbista.a lib/pkgconfig/kolbista.pc share/man/man3/kolbista.3" >> installed.files
        fi
        check "installed: programs, tools, pages and the script language" same \
            "$(cd "$at" && find bin share include lib -type f ! -name record.so ! -path '*/examples/*' 2> /dev/null | sort)" "$(tr ' ' '\n' < installed.files | sort)"
        if has cc && compiled sizes && compiled live; then
            "$at/bin/vmrecord" installed.vm -- ./sizes
            grep -v '^# sizes, process' installed.vm > sizes.lines
            check "installed: vmrecord records" diff "$here/tests/sizes.lines" sizes.lines
            "$at/bin/vmrecord" -m pool installed.vm -- ./live 5 100 2> fault
            check "installed: vmrecord finds vmreplay" same "$? $(cat fault)" "0 "
            "$at/bin/vmrecord" -d 16 installed.vm -- ./live 1100 1000 2> fault
            check "installed: vmrecord tells what is refused" \
                same "$(grep -c ': [0-9]* of 1,101 commands are refused when it is run' fault)" 1
        else
            skipped "installed: what vmrecord records: there is no cc"
        fi
        "$at/bin/vmcurve" "$at/share/doc/kolbista/examples/trace.vm" > installed.svg
        check "installed: vmcurve finds vmreplay" grep -q '8,076' installed.svg
        drawn "$here/../examples/tie.vm" > drawn.replies
        check "installed: vmpicture draws" test -n "$("$at/bin/vmpicture" drawn.replies)"
        "$at/bin/vmpicture" -n 34 "$at/share/doc/kolbista/examples/trace.vm" > installed.svg
        check "installed: vmpicture finds vmreplay" grep -q '>blocks: 9, ' installed.svg
        check "installed: vmcheck finds dtrun" same "$("$at/bin/vmcheck" "$at/share/doc/kolbista/examples/set.dt" | sed 's/.*: no/no/; s/:.*//')" "no line is bad"
        "$at/bin/vmways" "$at/share/doc/kolbista/examples/array.trace" > installed.svg
        check "installed: vmways finds vmcompare" grep -q '>last, a last region: 8,192 bytes' installed.svg
        check "installed: vmimage shows an image" same "$("$at/bin/vmimage" show "$at/share/doc/kolbista/examples/fruit.image" | tail -n 1)" "2 apple Plum"
        check "installed: vmsites finds vmreplay" test -n "$("$at/bin/vmsites" "$at/share/doc/kolbista/examples/profile.vm" | grep '^main ')"
        make -s -C "$here/.." uninstall DESTDIR="$dir/root" PREFIX=/usr
        check "uninstalled: no file is left" same "$(find "$dir/root" -type f)" ""
    else
        cat made
        check "make install" false
    fi
else
    skipped "what is installed: there is no make"
fi

# What is packed: the files of these sources, from which the same can be packed again.
if has make && has gzip; then
    (cd "$here/.." && find . -name .git -prune -o -path ./bin -prune -o -path './crates/*/out' -prune -o -path './kolbista-*' -prune -o -name __pycache__ -prune -o -type f -print | tar -cf - -T -) |
        (mkdir -p packed && cd packed && tar -xf -)
    version=$(cat "$here/../VERSION")
    check "make dist: a tarball with the version" same "$(make -s -C packed dist 2>&1)" "kolbista-$version.tar.gz"
    tar -xzf "packed/kolbista-$version.tar.gz"
    check "make dist: what it unpacks is what was packed" diff -r -x "kolbista-$version.tar.gz" packed "kolbista-$version"
    check "make dist: from what is unpacked" same "$(make -s -C "kolbista-$version" dist 2>&1)" "kolbista-$version.tar.gz"
    check "docs/CHANGES.md begins with the version" grep -q "^## $version$" "$here/../docs/CHANGES.md"
else
    skipped "what make dist packs: there is no make or no gzip"
fi
