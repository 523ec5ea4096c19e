#!/bin/sh
# Sees that `make cross` has its tools, and installs Debian's packages of those that are missing.
cd "$(dirname "$0")/../.." || exit 1
# A compiler counts only where it finds its C library: a program for the platform must link.
links="echo 'int main(void) { return 0; }' |"
APT_WORDS=--no-install-recommends exec tests/tools/packages.sh cross rt gcc python3 -- \
    'gcc-aarch64-linux-gnu libc6-dev-arm64-cross' "$links aarch64-linux-gnu-gcc -x c -o /dev/null -" \
    'gcc-riscv64-linux-gnu libc6-dev-riscv64-cross' "$links riscv64-linux-gnu-gcc -x c -o /dev/null -" \
    qemu-user 'command -v qemu-aarch64 && command -v qemu-riscv64' pkg-config 'command -v pkg-config'
