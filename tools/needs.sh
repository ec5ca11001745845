#!/bin/sh
# Installs by apt-get, as root, what the tests and the tools want and this machine lacks:
#   tools/needs.sh
# It says what it installs, and what is lacking then: the tests leave out what needs that, and say so. The status is 0 where
# nothing is lacking. The toolchain of rt is in no package.
set -u
LC_ALL=C
export LC_ALL

# Each need, the command or thing that tells whether it is there, and its packages.
needs() {
    cat << END
a C compiler: cc gcc libc6-dev
a C++ compiler: c++ g++
strip: strip binutils
make: make make
perl: perl perl
python3: python3 python3
the libraries that are asked for by name: pkg-config pkg-config
libcdt, with its header: libcdt libgraphviz-dev pkg-config
dot: dot graphviz
xmllint: xmllint libxml2-utils
rsvg-convert: rsvg-convert librsvg2-bin
Chromium: browser chromium
mandoc: mandoc mandoc
col: col bsdextrautils
valgrind: valgrind valgrind libc6-dbg
ltrace: ltrace ltrace
mawk: mawk mawk
gawk: gawk gawk
original-awk: original-awk original-awk
busybox: busybox busybox
unshare: unshare util-linux
a locale with decimal commas: commas locales
END
}

# there THING: whether it is there.
there() {
    case $1 in
        libcdt) pkg-config --exists libcdt 2> /dev/null ;;
        browser) command -v chromium > /dev/null || command -v chromium-browser > /dev/null || command -v google-chrome > /dev/null ;;
        commas) locale -a 2> /dev/null | grep -qi '^de_DE\.utf-\{0,1\}8$' ;;
        *) command -v "$1" > /dev/null ;;
    esac
}

# The needs that are lacking, and their packages.
lacking() {
    needs | while IFS= read -r need; do
        # shellcheck disable=SC2086
        set -- ${need#*: }
        there "$1" || echo "$need"
    done
}

packages() {
    lacking | sed 's/.*: [^ ]* //' | tr ' ' '\n' | sort -u
}

apt() {
    DEBIAN_FRONTEND=noninteractive apt-get -q -o Acquire::http::Timeout=20 -o Acquire::Retries=1 -o DPkg::Lock::Timeout=120 "$@" < /dev/null
}

wanted=$(packages)
if [ -n "$wanted" ]; then
    if ! command -v apt-get > /dev/null; then
        echo "tools/needs.sh: there is no apt-get"
    elif [ "$(id -u)" -ne 0 ]; then
        echo "tools/needs.sh: packages are installed by root alone"
    else
        awk_before=$(readlink -f "$(command -v awk)")
        echo "tools/needs.sh: installs $(echo "$wanted" | tr '\n' ' ')"
        reached=yes
        apt -o APT::Update::Error-Mode=any update || reached=no
        # Where one can't be had, the others are installed all the same; where no registry is reached, none is tried alone.
        # shellcheck disable=SC2086
        if ! apt install -y --no-install-recommends $wanted && [ "$reached" = yes ]; then
            for package in $wanted; do
                apt install -y --no-install-recommends "$package" || echo "tools/needs.sh: $package can't be installed"
            done
        fi
        there commas || ! command -v localedef > /dev/null || localedef -i de_DE -f UTF-8 de_DE.UTF-8
        # The machine's awk stays the one that it was.
        if [ -n "$awk_before" ] && [ "$(readlink -f "$(command -v awk)")" != "$awk_before" ]; then
            update-alternatives --set awk "$awk_before"
        fi
    fi
fi
left=$(lacking)
if [ -z "$left" ]; then
    echo "tools/needs.sh: nothing is lacking"
    exit 0
fi
echo "$left" | sed 's/\(.*\): .*/tools\/needs.sh: lacking: \1/'
exit 1
