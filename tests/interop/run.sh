#!/bin/sh
# Real RADIUS clients against the host of samples/host, and our requests against a real server, `make interop`.
# Its last line is 'N passed, M failed'.
set -u
cd "$(dirname "$0")/../.." || exit 1
tests/interop/tools.sh || exit 1
samples/host/build.sh || exit 1
mkdir -p target/interop
gcc -shared -o target/interop/libcapi.so -Wl,--whole-archive target/staticlib/libcapi.a -Wl,--no-whole-archive || exit 1
echo 'interop: Debian packages of the clients:'
dpkg-query -W freeradius-utils hostapd python3-pyrad python3-scapy tshark
python=$(tests/interop/python.sh) || exit 1
exec "$python" tests/interop/run.py target/host/fumbokeri-host target/interop/libcapi.so target/interop/capture.pcapng
