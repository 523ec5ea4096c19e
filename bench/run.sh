#!/bin/sh
# The benchmark: bench/run.sh compare (`make bench`) or record (`make record`). After the word, three archives may be named,
# PROBE PROBE_PACKETS LIBRARY: these are measured, and not those that rt writes.
set -u
cd "$(dirname "$0")/.." || exit 1
mode=${1:-}
case $mode in
compare | record) shift ;;
*) echo 'bench/run.sh compare|record [PROBE PROBE_PACKETS LIBRARY]' >&2; exit 2 ;;
esac
bench/tools.sh || exit 1
mkdir -p target/bench
if [ $# -eq 0 ]; then
    for name in probe probe_packets capi; do
        log=target/bench/$name.log
        echo "bench: rt builds $name, which it proves first where that was not done before; it reports to $log"
        tests/tools/staticlib.sh "$name" >"$log" 2>&1 || { cat "$log"; exit 1; }
        set -- "$@" "target/staticlib/lib$name.a"
    done
fi

# MD5 is as fast as it is only where the compiler leaves this function by itself (docs/DECISIONS.md, 3). Instructions would not show that it did not.
for archive in "$1" "$3"; do
    nm "$archive" | grep -q ' t md5_blocks::hash$' && continue
    echo "bench: $archive has no function md5_blocks::hash of its own: the compiler has put it into its callers, and MD5 takes a quarter more time" >&2
    exit 1
done

# -z now, so that no call counts the search for a symbol.
built() { # PROGRAM WORD...: of these sources and archives
    program=$1
    shift
    gcc -std=c99 -O2 -Wall -Wextra -o "target/bench/$program" "$@" -Wl,-z,now || exit 1
}
requests='bench/programs/packets.c bench/programs/plain_md5.c'
# shellcheck disable=SC2086 # one word to a file
{
    built digests -Wno-deprecated-declarations bench/programs/digests.c bench/programs/plain_md5.c "$1" -lcrypto # OpenSSL calls MD5_Init deprecated
    built reading bench/programs/reading.c $requests "$2"
    built handle bench/programs/handle.c bench/programs/sessions.c $requests "$3"
    built steps bench/programs/steps.c $requests "$3"
    built stack bench/programs/stack.c bench/programs/sessions.c $requests "$3"
}
for functions in 0 1 9; do built "linked$functions" "-DLINKED=$functions" bench/programs/linked.c "$3" -Wl,--gc-sections; done
exec python3 bench/measuring/measure.py "$mode"
