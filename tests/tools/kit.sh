#!/bin/sh
# kit.sh: prints the path of the Rattle kit's own clang. kit.sh DIR SHELL: a copy of the kit in DIR, by links, whose DIR/bin/rt runs these lines
# of shell in place of the clang; there "$clang" is the kit's own, and "$@" what it is called with.
#
# Rattle does not hand out LLVM code, and Debian's clang is too old to read what Rattle's compiles. So whoever wants that code, or wants it
# compiled in another way, stands where Rattle calls its clang. DIR is outside the checkout, where `rt ci` refuses links.
set -eu
home=$(dirname "$(dirname "$(readlink -f "$(command -v rt)")")")
clang=$home/toolchain/bin/clang
if [ $# -eq 0 ]; then
    echo "$clang"
    exit
fi

linked() { # FROM TO BUT...: links in TO to all that FROM holds, but for these names
    from=$1 to=$2
    shift 2
    mkdir -p "$to"
    for file in "$from"/*; do
        case " $* " in *" ${file##*/} "*) ;; *) ln -s "$file" "$to" ;; esac
    done
}

rm -rf "$1"
linked "$home" "$1" bin toolchain
# rt takes the kit to be where its own files lie, past all links
linked "$home/bin" "$1/bin" rt rtlib.py
cp "$home/bin/rt" "$home/bin/rtlib.py" "$1/bin"
linked "$home/toolchain" "$1/toolchain" bin
linked "$home/toolchain/bin" "$1/toolchain/bin" clang
printf '#!/bin/sh\nclang=%s\n%s\n' "$clang" "$2" >"$1/toolchain/bin/clang"
chmod +x "$1/toolchain/bin/clang"
