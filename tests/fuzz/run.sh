#!/bin/sh
# `make fuzz`: libFuzzer on the library's calls, FUZZ_SECONDS in all (300). run.sh COUNTED SHIPPED takes these archives (build.sh).
# Its last line is 'N passed, 0 failed'. An input that is answered wrongly is kept, and named with the command that runs it again.
#
#   handle.c write.c check_reply.c scheduler.c   a program each: an input becomes calls, and what they tell and write is held beside the model
#   *_model.c, model.h     the second implementation, from documents 01 and 02; it works out every byte that a call must write
#   parts.c, mend.c        an input as parts; a mutated packet put right (Length, signatures ..), so that it gets past the first rules
#   room.c                 memory with fences and guard bytes
#   seeds.py, rate_seeds.py   inputs to start from; what is found on the way is kept in target/fuzz/corpus, and later runs go on from there
#   wrong_*.c, self_test.sh   the library with something wrong in it: the programs must find it
#   seen.sh                the answers, and the ways in which a type 26 decides, that a run must have reached
#   kit.sh, build.sh       how the fuzzer sees which branches the library takes
set -u
cd "$(dirname "$0")/../.." || exit 1
room=target/fuzz
seconds=${FUZZ_SECONDS:-300}
[ "$seconds" -ge 4 ] || { echo 'fuzz: FUZZ_SECONDS is a number, 4 or more' >&2; exit 1; }
tests/fuzz/tools.sh || exit 1
mkdir -p $room/findings
echo 'fuzz: builds the library twice, proofs included; from nothing they take some minutes'
tests/fuzz/build.sh "$@" >$room/build.log 2>&1 || { cat $room/build.log; echo 'fuzz: not built' >&2; exit 1; }
python3 -m tests.fuzz.seeds $room/seeds || exit 1

passed=0 failed=0
count() { # STATUS WHAT
    if [ "$1" -eq 0 ]; then
        passed=$((passed + 1))
    else
        failed=$((failed + 1))
        echo "FAILED: $2"
    fi
}

# Runs a program on its corpus and its seeds; says what is wrong and where the input is, where there is a finding.
run() { # PROGRAM LOG WORDS...
    program=$1 log=$2
    shift 2
    "$room/$program" "$@" -max_len=10000 -timeout=10 -artifact_prefix="$room/findings/$program-" \
        "$room/corpus/${program%-shipped}" "$room/seeds/${program%-shipped}" >"$log" 2>&1 && return
    grep -E '^fuzz: wrong|ERROR: ' "$log"
    sed -n "s,^.*Test unit written to \(.*\),    again with: $room/$program \1,p" "$log"
    return 1
}

fuzzed() { # PROGRAM
    name=$1 log=$room/$1.log
    mkdir -p "$room/corpus/$name"
    run "$name" "$log" -max_total_time=$((seconds / 4)) -dict=$room/seeds/dictionary -print_final_stats=1
    found=$?
    runs=$(sed -n 's/^stat::number_of_executed_units: *//p' "$log")
    reached=$(sed -n 's/^#.* cov: \([0-9]*\) .*/\1/p' "$log" | tail -n 1)
    places=$(sed -n 's/^INFO: Loaded .* PC tables (\([0-9]*\) PCs).*/\1/p' "$log")
    echo "$name: ${runs:-?} runs, corpus $(find "$room/corpus/$name" -type f | wc -l), ${reached:-?} of ${places:-?} branches reached, $found findings"
    sed -n -e 's/^answers:/    answers (how often):/p' -e 's/^type 26: /    decided by a type 26: /p' "$log"
    count $found "$name has a finding"
    [ $found -ne 0 ] || { tests/fuzz/seen.sh "$name" "$log"; count $? "$name does not reach every answer"; }
    run "$name-shipped" "$room/$name-shipped.log" -runs=0
    count $? "$name has a finding with the archive as it is handed over"
}

echo '== the programs can fail'
tests/fuzz/self_test.sh >$room/self_test.log
count $? 'the programs do not find all that is wrong'
cat $room/self_test.log
echo "== $seconds seconds of fuzzing"
for program in handle write check_reply scheduler; do fuzzed $program; done
echo "$passed passed, $failed failed"
[ "$failed" -eq 0 ]
