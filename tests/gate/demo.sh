#!/bin/sh
# The demonstration, `make demo`: proves the code, runs it on the vectors of the RFCs, then lets a small gate in C work with the library.
set -u
cd "$(dirname "$0")/../.." || exit 1
for tool in rt gcc; do
    command -v "$tool" >/dev/null || { echo "demo: $tool is not installed" >&2; exit 1; }
done
mkdir -p target/demo

# What a program writes must be what is stored.
shown() { # PROGRAM STORED
    "$1" >target/demo/output || { echo "demo: $1 ended with status $?" >&2; exit 1; }
    sed 's/^/    /' target/demo/output
    echo
    cmp target/demo/output "$2" || { echo "demo: this is not what $2 has" >&2; exit 1; }
}

echo 'Fumbokeri: the receiving side of RADIUS Dynamic Authorization, proved.'
echo
echo 'First the proofs. From nothing they take some minutes.'
echo
for name in vectors vectors_packets vectors_requests; do
    # shellcheck disable=SC2016 # that shell fills it in
    tests/tools/proved.sh sh -c 'cd "crates/$1" && exec rt run' prove "$name" || exit 1
done
tests/tools/proved.sh tests/tools/staticlib.sh capi || exit 1
echo
echo 'Then the proved code, run on the examples that the RFCs print, on stored packets, requests and replies.'
echo
shown crates/vectors/out/vectors crates/vectors/stdout
shown crates/vectors_packets/out/vectors_packets crates/vectors_packets/stdout
shown crates/vectors_requests/out/vectors_requests crates/vectors_requests/stdout
echo 'All as in the RFCs and as the second implementation answers.'
echo
echo 'Last, a gate in a care home and its billing server: samples/rooms.c, a C program over the library, writes requests, takes them and checks the replies.'
echo
gcc -std=c99 -Wall -Wextra -O2 -o target/demo/rooms samples/rooms.c samples/show.c target/staticlib/libcapi.a || exit 1
shown target/demo/rooms samples/rooms.stdout
echo 'All as the second implementation answers.'
echo
echo 'And two requests in work at once, step by step, while a session starts: samples/interleaved.c.'
echo
gcc -std=c99 -Wall -Wextra -O2 -o target/demo/interleaved samples/interleaved.c samples/show.c target/staticlib/libcapi.a || exit 1
shown target/demo/interleaved samples/interleaved.stdout
echo 'Each request was answered for the session table as it stood when it was finished.'
