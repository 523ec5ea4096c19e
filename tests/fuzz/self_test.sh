#!/bin/sh
# Shows that the programs can fail: each must find what is wrong (wrong_*.c) within seconds, from the seeds, and find nothing where nothing is.
set -u
cd "$(dirname "$0")/../.." || exit 1
room=$(mktemp -d) || exit 1
trap 'rm -rf "$room"' EXIT
trap 'exit 1' HUP INT TERM
passed=0 failed=0

tried() { # PROGRAM NAME FINDINGS WORDS...: so many inputs are kept as a finding, and the exit status says whether there is one
    program=$1 name=$2 wanted=$3
    shift 3
    rm -rf "${room:?}"/*
    mkdir "$room/corpus"
    WRONG=$name "target/fuzz/$program-wrong" "$@" -max_len=10000 -dict=target/fuzz/seeds/dictionary -artifact_prefix="$room/" \
        "$room/corpus" "target/fuzz/seeds/$program" >"$room/log" 2>&1
    status=$?
    kept=$(find "$room" -name 'crash-*' | wc -l)
    if [ "$kept" -eq "$wanted" ] && [ $((status != 0)) -eq "$wanted" ]; then
        passed=$((passed + 1))
    else
        failed=$((failed + 1))
        echo "FAILED: $program, with '$name' wrong: $kept findings and status $status, not $wanted"
        tail -n 3 "$room/log"
    fi
}

found() { # PROGRAM NAME...
    program=$1
    shift
    tried "$program" nothing 0 -runs=0
    for name in "$@"; do tried "$program" "$name" 1 -max_total_time=30; done
}

found handle makes_up_the_count leaves_the_table changes_the_first_match keeps_16_bits clears_the_end_of_a_slot signs_over_zeros \
    writes_behind_the_reply asks_503_before_506 turns_the_skew takes_301_seconds writes_numbers_when_refused writes_before_the_table \
    reads_behind_the_packet remembers \
    reads_a_fifth_group takes_a_rate_twice_in_groups takes_a_rate_of_another_length takes_an_item_past_its_group takes_an_item_past_type_26 \
    takes_other_items takes_a_lone_byte takes_items_of_length_1 takes_two_type_26 takes_a_short_one_for_401 takes_another_vendor_for_404 \
    takes_no_rate_for_a_change keeps_16_bits_of_a_rate swaps_down_and_up writes_byte_189 writes_zero_to_the_other_rate
found write keeps_8_bits_of_the_code adds_only_for_1 writes_a_length_when_refused clears_the_rest
found check_reply takes_any_mac takes_any_authenticator takes_any_code asks_the_identifier_first
found scheduler copies_the_padding never_ends frees_no_discarded_job writes_the_reply_early tells_while_it_goes_on \
    commits_marks_of_before_a_start ends_a_slot_beyond sends_no_job_back_by_an_end keeps_a_length_when_refused \
    marks_when_discarded writes_to_the_secret drops_the_next_job_too commits_no_rate starts_with_a_rate
echo "$passed passed, $failed failed"
[ "$failed" -eq 0 ]
