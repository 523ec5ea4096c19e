#!/bin/sh
# Prints a Python that has Debian's pyrad and scapy: the first on PATH may be another one than Debian's.
for python in python3 /usr/bin/python3; do
    "$python" -c 'import pyrad, scapy' 2>/dev/null && exec echo "$python"
done
exit 1
