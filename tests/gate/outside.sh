#!/bin/sh
# The tests outside the prover: the proved code in shared libraries, called from Python.
set -u
cd "$(dirname "$0")/../.." || exit 1
mkdir -p target/tests
tests/tools/staticlib.sh probe probe_packets probe_table capi || exit 1

set -- # the libraries
for name in probe probe_packets probe_table capi; do
    gcc -shared -o "target/tests/lib$name.so" -Wl,--whole-archive "target/staticlib/lib$name.a" -Wl,--no-whole-archive || exit 1
    set -- "$@" "target/tests/lib$name.so"
done
python3 -m tests.run "$@"
