#!/bin/sh
# build.sh [COUNTED SHIPPED]: the four programs, each with three archives in turn. Without arguments rt writes the archives.
#   target/fuzz/PROGRAM          with the archive that counts the branches it takes (kit.sh), to fuzz with
#   target/fuzz/PROGRAM-shipped  with the archive as it is handed over, to run again what was found worth keeping
#   target/fuzz/PROGRAM-wrong    as the first, with something wrong put into the calls (wrong_*.c)
set -eu
cd "$(dirname "$0")/../.."
mkdir -p target/fuzz
if [ $# -eq 0 ]; then
    room=$(mktemp -d)
    trap 'rm -rf "$room"' EXIT
    trap 'exit 1' HUP INT TERM
    tests/fuzz/kit.sh "$room/kit"
    RT=$room/kit/bin/rt tests/tools/staticlib.sh capi
    mv target/staticlib/libcapi.a target/fuzz/libcapi-counted.a
    tests/tools/staticlib.sh capi
    set -- target/fuzz/libcapi-counted.a target/staticlib/libcapi.a
fi

# The models are instrumented too: their branches are document 01's rules.
linked() { # PROGRAM OUTPUT FILE...
    sources=tests/fuzz/$1.c
    [ "$1" = scheduler ] && sources="$sources tests/fuzz/world.c"
    output=$2
    shift 2
    # shellcheck disable=SC2086 # one word to a source
    clang -std=c99 -Wall -Wextra -O2 -g -fsanitize=fuzzer -o "$output" $sources tests/fuzz/harness.c tests/fuzz/mend.c tests/fuzz/parts.c \
        tests/fuzz/room.c tests/fuzz/*_model.c bench/programs/plain_md5.c "$@"
}

wraps=
for call in handle write check_reply make_lent open_lent step_lent drop_lent start_lent end_lent; do wraps="$wraps,--wrap=fbk_$call"; done
for program in handle write check_reply scheduler; do
    linked "$program" "target/fuzz/$program" "$1"
    linked "$program" "target/fuzz/$program-shipped" "$2"
    linked "$program" "target/fuzz/$program-wrong" tests/fuzz/wrong_*.c "$1" "-Wl$wraps"
done
