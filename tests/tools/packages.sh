#!/bin/sh
# packages.sh WHO TOOL... -- PACKAGES TEST [PACKAGES TEST]...: sees that the tools are there, and installs what fails its test.
# APT_WORDS, where set, goes to apt-get.
set -u
who=$1
shift
while [ "$1" != -- ]; do
    command -v "$1" >/dev/null || { echo "$who: $1 is not installed, and is needed" >&2; exit 1; }
    shift
done
shift

missing() { # PACKAGES TEST...
    while [ $# -gt 0 ]; do
        sh -c "$2" >/dev/null 2>&1 || echo "$1"
        shift 2
    done
}

packages=$(missing "$@" | xargs)
[ -n "$packages" ] || exit 0
echo "$who: not here, so installed now by apt-get: $packages"
export DEBIAN_FRONTEND=noninteractive # no questions, as that of tshark on who may capture
# shellcheck disable=SC2086 # one word to a package
{ apt-get update -qq && apt-get install -y -qq ${APT_WORDS:-} $packages; } >&2
packages=$(missing "$@" | xargs)
[ -z "$packages" ] || { echo "$who: cannot install $packages; install by hand, and run again" >&2; exit 1; }
