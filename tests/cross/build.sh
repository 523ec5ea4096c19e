#!/bin/sh
# build.sh PLATFORM CAPI PROBE: archives of these modules (LLVM text) in target/cross/PLATFORM: libfumbokeri.a and libprobe.a.
#
# The kit's clang compiles the module of the proved code for the platform, with the words that rt has it compile for x86-64. How C calls
# a function there is asked of the same clang: it compiles the header, and module.py holds each function beside its declaration.
set -eu
cd "$(dirname "$0")/../.."
platform=$1 room=target/cross/$1
. tests/cross/platform.sh
clang=$(tests/tools/kit.sh)
mkdir -p "$room"

compiled() { # WORDS...: for the platform
    # shellcheck disable=SC2086 # several words
    "$clang" $words -Werror "$@"
}

archived() { # MODULE HEADER ARCHIVE FUNCTION...
    module=$1 header=$2 name=$3
    shift 3
    rm -f "$room/$name.a"
    { echo "#include \"$header\""; echo 'void *const calls[] = {'; printf '(void *)%s,\n' "$@"; echo '};'; } >"$room/$name.c"
    # of a C library only the names of the numbers' types are wanted; gcc's own headers have them, the kit's clang has no headers
    compiled -ffreestanding -nostdinc -isystem "$($gcc -print-file-name=include)" -I. -S -emit-llvm "$room/$name.c" -o "$room/$name-calls.ll"
    python3 tests/cross/module.py like "$room/$name-calls.ll" "$module" >"$room/$name.ll"
    compiled -ffunction-sections -fdata-sections -mllvm -trap-unreachable -mllvm -no-trap-after-noreturn -mllvm -no-x86-call-frame-opt \
        -mllvm -disable-machine-licm -mllvm -disable-postra-machine-licm -mllvm -sink-common-insts=false -fPIC -O3 -c -x ir \
        "$room/$name.ll" -o "$room/$name.o"
    "${clang%clang}llvm-ar" rcsD "$room/$name.a" "$room/$name.o"
}

# shellcheck disable=SC2046 # a word to a function
archived "$2" include/fumbokeri.h libfumbokeri $(python3 tests/cross/module.py names "$2")
archived "$3" tests/cross/probe.h libprobe probe_md5 probe_hmac
