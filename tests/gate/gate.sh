#!/bin/sh
# The gate, `make test`. Its last line is 'N passed, 0 failed', or 'failed: ' and what failed.
set -u
cd "$(dirname "$0")/../.." || exit 1
exec 2>&1 # one stream, so that nothing comes after the last line

fail() {
    echo "failed: $*"
    exit 1
}

for tool in rt gcc python3; do
    command -v "$tool" >/dev/null || fail "$tool is not installed, and the gate needs it"
done
work=$(mktemp -d) || fail 'there is no room for temporary files'
trap 'rm -rf "$work"' EXIT
trap 'exit 1' HUP INT TERM

# Runs one part and adds its count. It passes only where both its exit status and its last line say so. What it printed is then in $work/output.
total=0
part() { # NAME COMMAND...
    name=$1
    shift
    echo "== $name"
    { "$@" 2>&1 </dev/null; echo $? >"$work/status"; } | tee "$work/output"
    status=$(cat "$work/status")
    last=$(tail -n 1 "$work/output")
    if ! echo "$last" | grep -Eq '^[0-9]+ passed, [0-9]+ failed$'; then last='with no count'; fi
    case $status:$last in
    0:*' passed, 0 failed') total=$((total + ${last%% *})) ;;
    *) fail "$name (exit $status, $last)" ;;
    esac
}

part 'the gate itself' tests/gate/gate_test.sh
part 'citations of the guides' python3 -m tests.guides.trace_check
part 'rt ci' rt ci # which refuses a file that is not laid out, too
mv "$work/output" "$work/ci" || fail 'there is no room for temporary files'
part 'must-fail logs' tests/gate/must_fail_logs.sh "$work/ci"
part 'tests outside the prover' tests/gate/outside.sh

echo "$total passed, 0 failed"
