#!/bin/sh
# Builds the host for tests, `make host`: target/host/fumbokeri-host, over the proved library.
set -u
cd "$(dirname "$0")/../.." || exit 1
for tool in rt gcc; do
    command -v "$tool" >/dev/null || { echo "host: $tool is not installed" >&2; exit 1; }
done
echo 'host: the library is proved first; from nothing that takes some minutes'
tests/tools/proved.sh tests/tools/staticlib.sh capi || exit 1
mkdir -p target/host
gcc -std=c99 -D_POSIX_C_SOURCE=200809L -Wall -Wextra -O2 -o target/host/fumbokeri-host \
    samples/host/*.c samples/show.c target/staticlib/libcapi.a || exit 1
echo 'host: target/host/fumbokeri-host is built; samples/host/rooms.txt is a session table for it'
