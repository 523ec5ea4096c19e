#!/bin/sh
# installed.sh PLATFORM ARCHIVE: `make install` of that archive into a temporary place, and a program for the platform that is built there
# with pkg-config's words, as position-independent code with the platform's own C library at run time, and run.
set -eu
cd "$(dirname "$0")/../.."
platform=$1
. tests/cross/platform.sh
place=$(mktemp -d)
trap 'rm -rf "$place"' EXIT
trap 'exit 1' HUP INT TERM

# what an outer make hands down is not for this one
env -u MAKEFLAGS -u MFLAGS -u MAKELEVEL -u MAKEOVERRIDES -u DESTDIR make -s install PREFIX="$place" ARCHIVE="$2" >"$place/log"
cmp "$2" "$place/lib/libfumbokeri.a"
flags=$(PKG_CONFIG_LIBDIR=$place/lib/pkgconfig pkg-config --cflags --libs fumbokeri)
# shellcheck disable=SC2086 # several words
$gcc -std=c99 -Wall -Wextra -Werror -pie -fPIE -o "$place/installed" tests/cases/c/installed.c $flags
if [ -n "$emulator" ]; then
    library=$(readlink -f "$($gcc -print-file-name=libc.so.6)")
    emulator="$emulator -L ${library%/lib/*}"
fi
told=$($emulator "$place/installed")
[ "$told" = 'made 0, started 0, written 0, handled 0, changed 1, checked 0' ] || { echo "    the installed program prints: $told"; exit 1; }
echo "    installed: a program that is built with pkg-config's words finds it, and runs"
