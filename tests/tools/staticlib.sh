#!/bin/sh
# staticlib.sh NAME...: proves these static libraries of crates.txt, one after the other, and copies each to target/staticlib/libNAME.a.
# RT, where set, is the rt that builds them (kit.sh). They are for every x86-64: without the word for that, rt's need an x86-64-v2, and do not
# look for one. What is proved is the same.
set -eu
cd "$(dirname "$0")/../.."
rt=${RT:-rt}
mkdir -p target/staticlib
for name; do
    rm -f "target/staticlib/lib$name.a" # none of an earlier run stays where this one fails
    (cd "crates/$name" && "$rt" lib --cpu=x86-64) || { echo "staticlib: $name is not built" >&2; exit 1; }
    cp "crates/$name/out/lib$name.a" target/staticlib
done
