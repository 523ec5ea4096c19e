#!/bin/sh
# kit.sh DIR: a copy of the Rattle kit in DIR whose clang also counts which branches a run takes, for libFuzzer to go by.
#
# Debian's afl++ has neither the QEMU nor the FRIDA mode, by which AFL follows a program that is not made for it. But Rattle's own clang
# knows libFuzzer's counters. So its command line gets one word more; what it compiles is the proved code.
# shellcheck disable=SC2016 # the copy's clang is what fills in the words
exec "$(dirname "$0")/../tools/kit.sh" "$1" 'exec "$clang" -fsanitize-coverage=inline-8bit-counters,pc-table "$@"'
