#!/bin/sh
# `make ct`: valgrind's memcheck with the secret marked as undefined. It reports each branch and each address that depends on it.
# Its last line is 'N passed, 0 failed'. run.sh PROBE PACKETS LIBRARY takes these archives and not those that rt writes.
set -u
cd "$(dirname "$0")/../.." || exit 1
tests/tools/packages.sh ct rt gcc python3 -- valgrind 'command -v valgrind' || exit 1
if [ $# -eq 0 ]; then
    tests/tools/staticlib.sh probe probe_packets capi || exit 1
    set -- target/staticlib/libprobe.a target/staticlib/libprobe_packets.a target/staticlib/libcapi.a
fi
mkdir -p target/ct
# -no-pie: addresses are the same in each run. -fno-builtin: the memcmp that is to be found out stays a call.
gcc -std=c99 -Wall -Wextra -O1 -g -no-pie -fno-builtin -o target/ct/subjects \
    tests/ct/*.c tests/fuzz/mend.c tests/fuzz/*_model.c bench/programs/plain_md5.c "$@" || exit 1
exec python3 tests/ct/run.py target/ct/subjects target/ct/report.xml
