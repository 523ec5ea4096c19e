#!/bin/sh
# `make cross`: the library for aarch64 and riscv64 Linux, target/cross/PLATFORM/libfumbokeri.a, tested under qemu beside x86-64.
# Its last line is 'N passed, 0 failed'. run.sh CAPI PROBE ARCHIVE takes these LLVM modules (modules.sh) and rt's archive of the first.
#
#   modules.sh, build.sh        the modules that rt's clang compiles; archives of them for a platform
#   module.py, module_test.py   what C calls in a module, and the module for another platform; that it finds what does not fit there
#   platform.sh, programs.sh    what differs between the platforms; the programs that are run on each
#   vectors.c, probe.h          the examples of RFC 1321 and RFC 2202
#   installed.sh                `make install` of an archive, and a program that uses it from there
#   generated.c                 inputs for the programs of tests/fuzz, which hold the library beside a model; a digest of what comes of them
set -u
cd "$(dirname "$0")/../.." || exit 1
exec 2>&1 # one stream, so that nothing comes after the last line
room=target/cross
# shellcheck disable=SC3045 # dash and bash have it
ulimit -c 0 # a program that is stopped on purpose leaves no file behind
passed=0 failed=0

count() { # STATUS WHAT
    if [ "$1" -eq 0 ]; then
        passed=$((passed + 1))
    else
        failed=$((failed + 1))
        echo "FAILED: $2"
    fi
}

needed() { # STATUS WHAT: as count; without it there is nothing to go on with
    count "$@"
    [ "$1" -eq 0 ] || ended
}

ended() {
    echo "$passed passed, $failed failed"
    [ "$failed" -eq 0 ]
    exit
}

names() { # ARCHIVE: what it hands out (T) and needs (U)
    "${gcc%gcc}nm" -g "$1" | awk 'NF > 1 { print $(NF - 1), $NF }'
}

# The archive hands out what rt's does, and needs no more of a C library than memory copied, set and compared.
built() { # CAPI PROBE ARCHIVE
    library=$room/$platform/libfumbokeri.a
    tests/cross/build.sh "$platform" "$1" "$2"
    needed $? "$platform: the archives are not built"
    names "$library" >"$room/$platform/names"
    [ "$(grep '^T' "$room/$platform/names")" = "$(gcc=gcc && names "$3" | grep '^T')" ]
    count $? "$library does not hand out the names of $3"
    needs=$(sed -n 's/^U //p' "$room/$platform/names" | xargs)
    echo "    $library: $(wc -c <"$library") bytes, needs $needs"
    ! echo "$needs" | tr ' ' '\n' | grep -Evx 'memcpy|memmove|memset|memcmp|bcmp'
    count $? "$library needs more than that"
}

# What is compiled here for x86-64 is what rt compiled: so the module is that of its archive, and the words to clang are the same.
same_object() { # ARCHIVE
    ar p "$1" >"$room/x86-64/handed-over.o" && cmp "$room/x86-64/libfumbokeri.o" "$room/x86-64/handed-over.o" &&
        echo "    byte for byte the code of $1"
    count $? "the module, compiled for x86-64, is not the code of $1"
}

stored() { # PROGRAM STORED: what the program writes is what is stored
    # shellcheck disable=SC2086 # a word, or none
    $emulator "$room/$platform/$1" >"$room/$platform/$1.out" && cmp "$room/$platform/$1.out" "$2" && echo "    $1: all as in $2"
    count $? "$platform: $1 does not write what is in $2"
}

# A program of tests/fuzz on so many inputs: nothing is wrong, every answer comes, and all is as on x86-64.
generated() { # PROGRAM COUNT
    out=$room/$platform/$1.digest log=$room/$platform/$1.log
    printf '    %-12s %6s inputs ' "$1" "$2"
    # shellcheck disable=SC2086 # a word, or none
    { $emulator "$room/$platform/$1" "$room/seeds/$1" "$2" 2>"$log"; echo $? >"$room/status"; } | tee "$out"
    status=$(cat "$room/status")
    [ "$status" -eq 0 ] || echo # the line is open
    count "$status" "$platform: $1 ends with status $status, $(grep -E '^(fuzz: wrong|generated|usage)' "$log" | paste -sd ';')"
    [ "$status" -eq 0 ] || return
    tests/fuzz/seen.sh "$1" "$log"
    count $? "$platform: $1 does not reach every answer"
    [ "$platform" != x86-64 ] || { sed -n 's/^answers:/        answers (how often):/p' "$log"; return; }
    cmp "$out" "$room/x86-64/$1.digest" && cmp "$log" "$room/x86-64/$1.log"
    count $? "$platform: the digest or the answers of $1 are not those on x86-64"
}

# That a program finds what is wrong with the library on this platform, and that the digest tells one list of inputs from another.
found() { # PROGRAM WRONG...
    program=$1 again="$emulator $room/$platform/$1-wrong $room/seeds/$1" right=0
    shift
    $again 1999 >"$room/less" 2>"$room/log" && $again 2000 >"$room/more" 2>"$room/log" && ! cmp -s "$room/less" "$room/more"
    status=$?
    count $status "$platform: $program stops where no call is made wrong on purpose, or has the same digest for one input more"
    [ $status -eq 0 ] || return
    for wrong; do
        WRONG=$wrong $again 20000 >"$room/more" 2>"$room/log"
        status=$? # 134: it is found wrong, and aborted; 139: a fence of memory was touched
        [ $status -eq 134 ] || [ $status -eq 139 ]
        found=$?
        right=$((right + 1 - found))
        count $found "$platform: it is not found that the library $wrong"
    done
    echo "    $program: of $# libraries made wrong on purpose, $right found out"
}

tests/cross/tools.sh || exit 1
mkdir -p $room
rm -rf $room/x86-64 $room/aarch64 $room/riscv64 # no archive stays that this run does not build
if [ $# -eq 0 ]; then
    echo 'cross: builds the library and the probe, proofs included; from nothing they take some minutes'
    tests/tools/proved.sh tests/cross/modules.sh || exit 1
    set -- $room/capi.ll $room/probe.ll target/staticlib/libcapi.a
fi
[ $# -eq 3 ] || { echo 'usage: run.sh [CAPI PROBE ARCHIVE]' >&2; exit 1; }
python3 -m tests.fuzz.seeds $room/seeds || exit 1
echo 'cross: Debian packages of compilers and emulator:'
dpkg-query -W gcc-aarch64-linux-gnu gcc-riscv64-linux-gnu qemu-user

echo '== what C calls in the module'
python3 -m tests.cross.module_test >$room/module_test.log
count $? "module.py does not find all that does not fit: $(cat $room/module_test.log)"
python3 tests/cross/module.py plain "$1"
needed $? "other platforms pass this otherwise than x86-64, so no archive is built for them"
echo "    $(python3 tests/cross/module.py names "$1" | wc -l) functions, all called with plain numbers and pointers"

for platform in x86-64 aarch64 riscv64; do
    . tests/cross/platform.sh
    echo "== $platform"
    built "$@"
    if [ $platform = x86-64 ]; then
        same_object "$3"
        library=$3 # as it is handed over
    fi
    tests/cross/programs.sh $platform "$library" $room/$platform/libprobe.a
    needed $? "$platform: the programs are not built"
    stored rooms samples/rooms.stdout
    stored interleaved samples/interleaved.stdout
    stored vectors crates/vectors/stdout
    tests/cross/installed.sh $platform "$library"
    count $? "$platform: a program with the installed library does not do what it should"
    found handle turns_the_skew keeps_16_bits signs_over_zeros writes_behind_the_reply reads_behind_the_packet keeps_16_bits_of_a_rate \
        takes_an_item_past_its_group
    found write clears_the_rest
    found check_reply takes_any_mac
    found scheduler copies_the_padding frees_no_discarded_job writes_the_reply_early
    for program in handle write check_reply; do generated $program 100000; done
    generated scheduler 10000
done
ended
