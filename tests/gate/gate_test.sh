#!/bin/sh
# Tests the gate: .ci/run in a made-up repository with a made-up rt must end as it should, whatever goes wrong.
set -u
cd "$(dirname "$0")/../.." || exit 1
unset MAKEFLAGS MFLAGS MAKELEVEL # what an outer make hands down is not what CI has
room=$(mktemp -d) || exit 1
room=$(cd "$room" && pwd -P) || exit 1
trap 'rm -rf "$room"' EXIT
trap 'exit 1' HUP INT TERM

# The repository: the real gate; one edit; and three parts that only count, as the gate would test itself without end.
repo=$room/repo
mkdir -p "$repo/.ci" "$repo/tests/gate" "$repo/tests/guides" "$repo/tests/tools" "$repo/crates/made/must-fail"
for name in capi probe probe_packets probe_table; do mkdir "$repo/crates/$name"; done
cp Makefile crates.txt "$repo"
cp .ci/run "$repo/.ci"
cp tests/__init__.py "$repo/tests"
cp tests/gate/gate.sh tests/gate/must_fail_logs.sh tests/gate/outside.sh "$repo/tests/gate"
cp tests/tools/staticlib.sh "$repo/tests/tools"
edit=$repo/crates/made/must-fail/loop.edit
echo 'an edit' >"$edit"
printf '#!/bin/sh\necho "2 passed, 0 failed"\n' >"$repo/tests/gate/gate_test.sh"
chmod +x "$repo/tests/gate/gate_test.sh"
cat >"$repo/tests/guides/trace_check.py" <<'EOF'
import os
print(os.environ.get("CITED_LAST", "5 passed, 0 failed"))
EOF
cat >"$repo/tests/run.py" <<'EOF'
import os, sys
print(os.environ.get("RUN_LAST", "4 passed, 0 failed"))
sys.exit(int(os.environ.get("RUN_STATUS", 0)))
EOF

# The tools: an rt that does what the test's variables say, and links to what .ci/run needs before it knows that one is missing.
# The gate's is `rt ci` with no other word, at the top, over all that was there at first: for any other this rt has no count.
tools=$room/tools
mkdir "$tools"
printf '#!/bin/sh\nrepo=%s there=%s/there\n' "$repo" "$room" >"$tools/rt"
cat >>"$tools/rt" <<'EOF'
case $*:$PWD in
ci:"$repo")
    find crates crates.txt | cmp -s - "$there" || exit 4
    [ -z "${CI_SAYS:-}" ] || echo "rt: $CI_SAYS"
    [ -n "${NO_WORD:-}" ] || echo "rt: must-fail made/loop.edit: ${EDIT_SAYS:-refused, as it must be: ./proofs/f/Proof.antt:9:13: error: no proof}"
    [ -n "${NO_OK:-}" ] || echo "rt: ok; handles allowed: none${OK_SAYS-; must-fail edits: 1 refused}; every proof and must-fail edit was done in this run"
    echo "${CI_LAST:-3 passed, 0 failed}"
    exit "${CI_STATUS:-0}"
    ;;
"lib --cpu=x86-64:$repo"/crates/*)
    mkdir -p out
    echo 'int made;' | gcc -fPIC -c -x c - -o out/made.o && ar rc "out/lib${PWD##*/}.a" out/made.o
    exit "${LIB_STATUS:-0}"
    ;;
*) exit 3 ;;
esac
EOF
chmod +x "$tools/rt"

passed=0 failed=0
same() { # WHAT FOUND WANTED
    if [ "$2" = "$3" ]; then
        passed=$((passed + 1))
    else
        failed=$((failed + 1))
        printf 'FAILED: %s\n    wanted: %s\n    found:  %s\n' "$1" "$3" "$2"
    fi
}
try() { # WHAT STATUS LAST [NAME=VALUE...]: how .ci/run must end with these variables
    what=$1 wanted="exit $2, $3"
    shift 3
    rm -rf "$room"/repo/target "$room"/repo/crates/*/out
    (cd "$repo" && find crates crates.txt) >"$room/there"
    env PATH="$tools:$PATH" "$@" "$repo/.ci/run" >"$room/output" 2>&1
    same "$what" "exit $?, $(tail -n 1 "$room/output")" "$wanted"
}
told() { # WHAT TEXT: the last run says this of the edit
    same "$1" "$(grep -c "^must-fail made/loop: $2" "$room/output")" 1
}
bad=2 # what make exits with where a recipe fails

try 'all well' 0 '15 passed, 0 failed' # 3 of rt, 1 edit, 4 of run.py, 2 of the gate, 5 citations
layout='src/lib.rt is not in the layout'
try 'a file out of layout' $bad 'failed: rt ci (exit 1, 2 passed, 1 failed)' CI_SAYS="$layout" CI_STATUS=1 CI_LAST='2 passed, 1 failed' NO_OK=1
try 'a layout that cannot be tested' $bad 'failed: rt ci (exit 2, 0 passed, 1 failed)' CI_STATUS=2 CI_LAST='0 passed, 1 failed' NO_OK=1
try 'a word of the layout after the count' $bad 'failed: rt ci (exit 0, with no count)' CI_LAST="3 passed, 0 failed
$layout"
try 'a crate not proved' $bad 'failed: rt ci (exit 1, 2 passed, 1 failed)' CI_STATUS=1 CI_LAST='2 passed, 1 failed'
try 'a count with a failure' $bad 'failed: rt ci (exit 0, 2 passed, 1 failed)' CI_LAST='2 passed, 1 failed'
try 'ten failures' $bad 'failed: rt ci (exit 0, 2 passed, 10 failed)' CI_LAST='2 passed, 10 failed'
try 'a good count and a bad exit' $bad 'failed: rt ci (exit 3, 3 passed, 0 failed)' CI_STATUS=3
try 'no count' $bad 'failed: rt ci (exit 0, with no count)' CI_LAST='rt: ok, 3 passed, 0 failed'
try 'a count of some crates alone' $bad 'failed: rt ci (exit 0, with no count)' CI_LAST='3 passed, 0 failed (made and the crates below alone: not the gate)'

# What rt says of an edit and of their number. To rt itself none of these is a failure, but for two.
of_edits='failed: must-fail logs (exit 1,'
unsaid='refused, as it must be (only because a proof file names what the edit took away, so this says little of the contract: change a value and keep the names)'
at_limit='refused, as it must be (only by a limit of the prover, which gave no verdict, so this says less of the contract: choose a change that it refuses sooner)'
at='./proofs/f/Proof.antt:9:13: error: '
try 'an edit of which rt says nothing' $bad "$of_edits 0 passed, 1 failed)" NO_WORD=1
told 'that it was not tried' 'no word of it: it was not tried'
for gone in Need-loop-holds InvT-loop MeasureT-loop; do
    says="module \`made.Tie\` has no \`$gone\` that can be named from here"
    try "an edit that takes $gone away" $bad "$of_edits 0 passed, 1 failed)" EDIT_SAYS="$unsaid: $at$says"
    told "that $gone is gone" "shows nothing, its proof only names what is gone: $at$says"
    try "an edit where $gone is gone, and another error is better" 0 '15 passed, 0 failed' EDIT_SAYS='refused, as it must be: note: src/lib.rt:8:1: it is not proved'
done
try 'an edit that puts another call in its place' $bad "$of_edits 0 passed, 1 failed)" EDIT_SAYS="$unsaid: ${at}record \`made.After-g\` has no field \`f\`"
try 'an edit that is refused without a word why' $bad "$of_edits 0 passed, 1 failed)" EDIT_SAYS='refused, as it must be'
told 'that no reason is given' 'shows nothing, rt gives no reason'
broke="${at}antt ran out of stack"
one_at_limit='; must-fail edits: 1 refused, 1 of them only by a limit'
try 'an edit at which the prover only broke off' $bad "$of_edits 0 passed, 1 failed)" EDIT_SAYS="$at_limit: $broke" OK_SAYS="$one_at_limit"
told 'that the prover broke off' "shows nothing, the prover only broke off: $broke"
try 'an edit at which the prover broke off, and another error is better' 0 '15 passed, 0 failed' EDIT_SAYS="refused, as it must be: ${at}no proof"
try 'an edit that cannot be made' $bad "$of_edits 0 passed, 3 failed)" OK_SAYS='; must-fail edits: 0 refused, 1 bad' \
    EDIT_SAYS="BAD EDIT: an 'old:' text is in src/lib.rt 2 times, and not once"
told 'that it cannot be made' "BAD EDIT: an 'old:' text is in src/lib.rt 2 times"
try 'an edit beside it that is bad' $bad "$of_edits 1 passed, 1 failed)" OK_SAYS='; must-fail edits: 1 refused, 1 bad'
try 'bad edits, after one at a limit' $bad "$of_edits 1 passed, 1 failed)" OK_SAYS="$one_at_limit, 12 bad"
try 'an edit that is still proved' $bad "$of_edits 0 passed, 1 failed)" EDIT_SAYS='NOT REFUSED: the crate is still proved with this edit'
try 'an edit that was not tried' $bad "$of_edits 0 passed, 1 failed)" EDIT_SAYS='NOT TRIED: its check was killed, so nothing is known of it'
try 'fewer edits than there are' $bad "$of_edits 1 passed, 1 failed)" OK_SAYS='; must-fail edits: 0 refused'
try 'more edits than there are' $bad "$of_edits 1 passed, 1 failed)" OK_SAYS='; must-fail edits: 11 refused'
try 'no number of edits' $bad "$of_edits 1 passed, 1 failed)" OK_SAYS=
try 'no word that all is well' $bad "$of_edits 1 passed, 1 failed)" NO_OK=1
mv "$edit" "$room/aside"
try 'no edit' 0 '14 passed, 0 failed' NO_WORD=1 OK_SAYS=
try 'an edit that is not there' $bad "$of_edits 0 passed, 1 failed)"
mv "$room/aside" "$edit"

try 'a wrong citation' $bad 'failed: citations of the guides (exit 0, 4 passed, 1 failed)' CITED_LAST='4 passed, 1 failed'
try 'no library' $bad 'failed: tests outside the prover (exit 1, with no count)' LIB_STATUS=1
try 'a test fails' $bad 'failed: tests outside the prover (exit 1, 3 passed, 1 failed)' RUN_STATUS=1 RUN_LAST='3 passed, 1 failed'
try 'the tests crash' $bad 'failed: tests outside the prover (exit 139, with no count)' RUN_STATUS=139 RUN_LAST='a group: 3 passed, 0 failed'

for tool in sh dirname make gcc python3; do ln -s "$(command -v $tool)" "$tools/$tool"; done
for tool in rt gcc python3; do
    mv "$tools/$tool" "$room/aside"
    try "no $tool" $bad "failed: $tool is not installed, and the gate needs it" PATH="$tools"
    mv "$room/aside" "$tools/$tool"
done
rm "$tools/make"
try 'no make' 1 'failed: make is not installed, and the gate needs it' PATH="$tools"

echo "$passed passed, $failed failed"
[ "$failed" -eq 0 ]
