#!/bin/sh
# Sees that `make interop` has its tools, and installs Debian's packages of those that are missing.
cd "$(dirname "$0")/../.." || exit 1
# A server that a package brings along is not what is tested: none is recommended.
APT_WORDS=--no-install-recommends exec tests/tools/packages.sh interop rt gcc -- \
    freeradius-utils 'command -v radclient' tshark 'command -v tshark' hostapd '[ -x /usr/sbin/hostapd ]' \
    'python3-pyrad python3-scapy' tests/interop/python.sh
