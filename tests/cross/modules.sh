#!/bin/sh
# modules.sh: proves the library and the probe, and writes the LLVM modules that rt's clang is given: target/cross/capi.ll and probe.ll.
# rt's own archives, for x86-64, are then in target/staticlib.
set -eu
cd "$(dirname "$0")/../.."
mkdir -p target/cross
room=$(mktemp -d)
trap 'rm -rf "$room"' EXIT
trap 'exit 1' HUP INT TERM
kept=$room/kept.bc
# shellcheck disable=SC2016 # the copy's clang is what fills in the words
tests/tools/kit.sh "$room/kit" 'for word; do case $word in *.bc) cp "$word" "'"$kept"'" ;; esac; done
exec "$clang" "$@"'
for name in capi probe; do
    rm -f "$kept"
    RT=$room/kit/bin/rt tests/tools/staticlib.sh "$name"
    [ -s "$kept" ] || { echo "cross: rt's clang was given no module of $name" >&2; exit 1; }
    "$(tests/tools/kit.sh)" --target=x86_64-unknown-linux-gnu -S -emit-llvm -Xclang -disable-llvm-passes -x ir "$kept" -o "target/cross/$name.ll"
done
