#!/bin/sh
# programs.sh PLATFORM LIBRARY PROBE: the programs that run.sh runs there, with these archives: target/cross/PLATFORM/PROGRAM.
# PROGRAM-wrong is one of the fuzzer's with something wrong put into the calls, which the environment's WRONG names.
set -eu
cd "$(dirname "$0")/../.."
platform=$1 library=$2 probe=$3 room=target/cross/$1
. tests/cross/platform.sh

built() { # PROGRAM FILE...
    output=$room/$1
    shift
    # shellcheck disable=SC2086 # a word, or none
    $gcc -std=c99 -Wall -Wextra -Werror -O2 $static -o "$output" "$@"
}

generated() { # PROGRAM SOURCES...: one of the fuzzer's programs, with inputs by generated.c
    built "$@" tests/cross/generated.c tests/fuzz/harness.c tests/fuzz/mend.c tests/fuzz/parts.c tests/fuzz/room.c tests/fuzz/*_model.c \
        bench/programs/plain_md5.c "$library"
}

for sample in rooms interleaved; do built $sample samples/$sample.c samples/show.c "$library"; done
built vectors tests/cross/vectors.c "$probe"
wraps=
for call in handle write check_reply make_lent open_lent step_lent drop_lent start_lent end_lent; do wraps="$wraps,--wrap=fbk_$call"; done
for program in handle write check_reply scheduler; do
    world= # which only the scheduler's program has
    [ $program != scheduler ] || world=tests/fuzz/world.c
    # shellcheck disable=SC2086 # a word, or none
    generated $program tests/fuzz/$program.c $world
    # shellcheck disable=SC2086 # the same
    generated $program-wrong tests/fuzz/$program.c $world tests/fuzz/wrong_*.c "-Wl$wraps"
done
