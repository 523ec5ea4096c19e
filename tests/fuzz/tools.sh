#!/bin/sh
# Sees that the fuzzer has its tools, and installs clang and libFuzzer where they are not there.
cd "$(dirname "$0")/../.." || exit 1
tests/tools/packages.sh fuzz rt gcc python3 -- clang 'command -v clang' || exit 1
version=$(clang -dumpversion)
program='int LLVMFuzzerTestOneInput(const char *data, long size) { return !data && size; }'
exec tests/tools/packages.sh fuzz clang -- "libclang-rt-${version%%.*}-dev" "echo '$program' | clang -x c -fsanitize=fuzzer -o /dev/null -"
