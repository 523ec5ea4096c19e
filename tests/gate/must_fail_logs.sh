#!/bin/sh
# Looks at why each must-fail edit was refused: must_fail_logs.sh LOG [ROOT], where LOG is what `rt ci` printed.
# An edit that takes a loop or an index away is refused because the proof still names what was to be shown of it.
# Where rt finds no other error, the edit shows nothing of the contract. Where the prover only broke off at a limit of its own, it did not get to
# say that a fact fails. An edit that cannot be made or read (BAD EDIT) is no failure to rt, and shows nothing either.
set -u
log=$1 root=${2:-.}

passed=0 failed=0
wrong() { # WHAT WHY
    echo "must-fail $1: $2"
    failed=$((failed + 1))
}

edits=0
for edit in "$root"/crates/*/must-fail/*.edit; do
    [ -f "$edit" ] || continue # there is no edit, and this is the pattern itself
    edits=$((edits + 1))
    crate=${edit#"$root"/crates/}
    name=${crate%%/*}/$(basename "$edit" .edit)
    said=$(grep -m 1 -F "rt: must-fail $name.edit: " "$log")
    said=${said#"rt: must-fail $name.edit: "}
    case $said in
    'refused, as it must be (only because a proof file names '*) wrong "$name" "shows nothing, its proof only names what is gone: ${said#*names): }" ;;
    'refused, as it must be (only by a limit of the prover'*) wrong "$name" "shows nothing, the prover only broke off: ${said#*sooner): }" ;;
    'refused, as it must be') wrong "$name" 'shows nothing, rt gives no reason' ;; # as where it does not cover the shape of the edited code
    'refused, as it must be: '*) passed=$((passed + 1)) ;;
    '') wrong "$name" 'no word of it: it was not tried' ;;
    *) wrong "$name" "$said" ;;
    esac
done

# rt's own count must be of these edits, and of no others.
ok=$(grep '^rt: ok;' "$log" | tail -n 1)
refused=$(echo "$ok" | sed -n 's/.*; must-fail edits: \([0-9]*\) refused[,;].*/\1/p')
bad=$(echo "$ok" | sed -n 's/.*; must-fail edits: [^;]*, \([0-9]*\) bad;.*/\1/p')
if [ -z "$ok" ]; then
    wrong edits 'rt does not say how many it refused'
elif [ "${refused:-0}" -ne "$edits" ]; then
    wrong edits "rt refused ${refused:-0}, and there are $edits"
fi
[ -z "$bad" ] || wrong edits "rt found $bad bad"
echo "$passed passed, $failed failed"
[ "$failed" -eq 0 ]
