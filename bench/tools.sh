#!/bin/sh
# Sees that the benchmark has its tools, and installs the two that a machine for `make test` may lack.
cd "$(dirname "$0")/.." || exit 1
exec tests/tools/packages.sh bench rt gcc python3 -- valgrind 'command -v valgrind' libssl-dev "echo '#include <openssl/md5.h>' | gcc -E -"
