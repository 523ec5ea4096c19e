#!/bin/sh
# Installs the library, or removes it: include/install.sh install|uninstall PREFIX [ARCHIVE], under DESTDIR if that is set.
# Without ARCHIVE, rt proves and builds the library first. The version stands in include/fumbokeri.pc.in.
set -eu
cd "$(dirname "$0")/.."
mode=$1 prefix=$2 archive=${3:-}
case $prefix in
/*) ;;
*) echo "$mode: PREFIX is '$prefix', and must be an absolute path" >&2; exit 1 ;;
esac
place=${DESTDIR:-}$prefix

if [ "$mode" = uninstall ]; then
    rm -f "$place/include/fumbokeri.h" "$place/lib/libfumbokeri.a" "$place/lib/pkgconfig/fumbokeri.pc"
    exit
fi
if [ -z "$archive" ]; then
    tests/tools/staticlib.sh capi
    archive=target/staticlib/libcapi.a
fi
mkdir -p "$place/include" "$place/lib/pkgconfig"
install -m 644 include/fumbokeri.h "$place/include/fumbokeri.h"
install -m 644 "$archive" "$place/lib/libfumbokeri.a"
sed "s|@PREFIX@|$prefix|" include/fumbokeri.pc.in >"$place/lib/pkgconfig/fumbokeri.pc"
chmod 644 "$place/lib/pkgconfig/fumbokeri.pc"
echo "installed under $place: include/fumbokeri.h, lib/libfumbokeri.a, lib/pkgconfig/fumbokeri.pc"
