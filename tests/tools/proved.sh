#!/bin/sh
# Runs a command of rt and shows how far it is: proved.sh COMMAND... What was proved before is not told again; all that it says is in target/proofs.
set -u
mkdir -p target
# a crate is named before the line that says that it is proved; what rt says of its own work is not told
{ "$@" 2>&1; echo $? >target/proofs.status; } | tee target/proofs |
    sed -n -e '/^rt: [a-z0-9_]*: begins with /d' -e '/^rt: chose /d' -e '/^rt: nothing has changed /d' -e '/^rt: running /d' -e 's/^rt: /    /p' \
        -e '/^crate /{s/^crate \([a-z0-9_]*\):.*/\1/;h}' -e '/^logic=proved /{g;s/.*/    & proved/p}'
status=$(cat target/proofs.status)
[ "$status" -eq 0 ] && exit 0
cat target/proofs
echo 'not proved' >&2
exit 1
