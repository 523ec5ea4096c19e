# What this repository does. The work is in the scripts under tests/, bench/, include/ and samples/host/.
.PHONY: demo test bench record install uninstall host interop fuzz ct cross

# where the library goes; DESTDIR, put before it, is for packages
PREFIX = /usr/local
export DESTDIR

# the proved code at work: on the vectors of the RFCs, and in a small gate in C
demo:
	@tests/gate/demo.sh

# the gate: rt ci (layout, proofs, must-fail edits), and tests outside the prover
test:
	@tests/gate/gate.sh

# the figures: instructions beside MD5, OpenSSL and the peers, growth, code size, stack; fails where one is worse than recorded
bench:
	@bench/run.sh compare

# the same, and then the figures are the recorded ones: bench/expected.txt, docs/growth.svg
record:
	@bench/run.sh record

# header, archive and pkg-config file under PREFIX; ARCHIVE=.. installs that one and proves nothing
install:
	@include/install.sh install "$(PREFIX)" "$(ARCHIVE)"

# removes what install put there
uninstall:
	@include/install.sh uninstall "$(PREFIX)"

# a host to test RADIUS clients with: the library behind a UDP port of 127.0.0.1
host:
	@samples/host/build.sh

# real RADIUS clients against that host, and our requests against a real server; installs what it needs
interop:
	@tests/interop/run.sh

# mutated packets and lists of calls beside a second implementation in C, for FUZZ_SECONDS (300)
fuzz:
	@tests/fuzz/run.sh

# valgrind: no branch and no address depends on the secret, but for the verdicts
ct:
	@tests/ct/run.sh

# archives for aarch64 and riscv64 Linux, run under qemu beside x86-64; installs what it needs
cross:
	@tests/cross/run.sh
