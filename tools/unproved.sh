#!/bin/sh
# Compiles programs without a proof, as the gate compiles them, and leaves them in bin/:
#   tools/unproved.sh [PROGRAM..]
# Where none is named: vmreplay, dtrun, vmcompare and vmimage, side by side. bin/UNPROVED then names them, one a line, until
# make leaves proved ones. The code is that which 'rt try' runs, compiled once more without its checks. RT and BIN stand for
# the command rt and the folder bin. The status is 1 where a program doesn't compile, and 127 without rt.
set -u
here=$(cd "$(dirname "$0")/.." && pwd) || exit 1
rt=${RT:-rt}
bin=${BIN:-$here/bin}
case $bin in
    /*) ;;
    *) bin=$here/$bin ;;
esac
[ $# -gt 0 ] || set -- vmreplay dtrun vmcompare vmimage
for name do
    case $name in
        vmreplay | dtrun | vmcompare | vmimage) ;;
        *) echo "tools/unproved.sh: there is no program $name: vmreplay, dtrun, vmcompare and vmimage are" >&2; exit 2 ;;
    esac
done
if ! command -v "$rt" > /dev/null; then
    echo "no command $rt: it is that of the Rattle toolchain, whose kit has it in its folder bin, to be put on the PATH; no package has it. README.md names the kit" >&2
    exit 127
fi
kit=$(dirname "$("$rt" doc)")
dir=$(mktemp -d) || exit 1
trap 'rm -rf "$dir"' EXIT
trap 'exit 1' HUP INT TERM

# A kit like the real one, but that its compiler keeps the program's module and stops.
like_kit() {
    mkdir -p "$1/bin" "$1/toolchain/bin" || return
    ln -s "$kit"/* "$1" 2> /dev/null
    cp -L "$kit"/bin/rt* "$1/bin" && ln -s "$kit"/bin/rattle* "$1/bin" || return
    ln -s "$kit/toolchain/lib" "$1/toolchain/lib" && ln -s "$kit"/toolchain/bin/* "$1/toolchain/bin" || return
    rm -f "$1/toolchain/bin/clang"
    cat > "$1/toolchain/bin/clang" << END
#!/bin/sh
# The module with 'main' is the one that is compiled with its checks.
case " \$* " in
    *" -fsanitize=address "*) cp module.bc '$1/module.bc'; exit 1 ;;
esac
exec '$kit/toolchain/bin/clang' "\$@"
END
    chmod +x "$1/toolchain/bin/clang"
}

compiled() {
    name=$1
    like_kit "$dir/$name" || return
    (cd "$here/crates/$name" && "$dir/$name/bin/rt" try < /dev/null) > "$dir/$name/said" 2>&1
    if [ ! -f "$dir/$name/module.bc" ]; then
        cat "$dir/$name/said" >&2
        return 1
    fi
    "$kit/toolchain/bin/clang" --target=x86_64-unknown-linux-gnu --sysroot="$kit/toolchain" -march=x86-64 --no-default-config \
        -no-canonical-prefixes -ffunction-sections -fdata-sections -mllvm -trap-unreachable -fPIE -O2 \
        -c -x ir "$dir/$name/module.bc" -o "$dir/$name/module.o" || return
    lib=$kit/toolchain/lib
    "$kit/toolchain/bin/ld.lld" --gc-sections --strip-all -pie -dynamic-linker /lib64/ld-linux-x86-64.so.2 -o "$dir/$name/program" \
        "$lib/Scrt1.o" "$lib/crti.o" "$lib/crtbeginS.o" "$dir/$name/module.o" "$kit/c/libos_c.a" "$kit/c/liblibc_c.a" \
        "$lib/libm.so.6" "$lib/libc.so.6" "$lib/libc_nonshared.a" "$lib/ld-linux-x86-64.so.2" "$lib/libgcc.a" "$lib/libgcc_s.so.1" \
        "$lib/crtendS.o" "$lib/crtn.o" || return
    mkdir -p "$bin" && mv -f "$dir/$name/program" "$bin/$name"
}

began=$(date +%s)
for name do
    (compiled "$name"; echo $? > "$dir/$name.status") &
done
wait
status=0
for name do
    if [ "$(cat "$dir/$name.status")" -eq 0 ]; then
        { cat "$bin/UNPROVED" 2> /dev/null; echo "$name"; } | sort -u > "$dir/UNPROVED" && mv -f "$dir/UNPROVED" "$bin/UNPROVED"
    else
        echo "tools/unproved.sh: $name wasn't compiled" >&2
        status=1
    fi
done
seconds=$(($(date +%s) - began))
[ $status -ne 0 ] || echo "not proved, in $bin: $*, compiled in $seconds seconds" >&2
exit $status
