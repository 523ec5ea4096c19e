# shellcheck shell=sh
# shellcheck disable=SC2034 # whoever reads this file uses them
# To be read by `.` with $platform set. It sets what differs between the platforms: the kit's clang's words, gcc and a word for linking
# (without a C library of the platform's to be found at run time), and who runs a program.
case ${platform:?} in
x86-64) words='--target=x86_64-unknown-linux-gnu -march=x86-64' gcc=gcc static='' emulator='' ;;
aarch64) words='--target=aarch64-linux-gnu' gcc=aarch64-linux-gnu-gcc static=-static emulator=qemu-aarch64 ;;
riscv64) words='--target=riscv64-linux-gnu -march=rv64gc -mabi=lp64d' gcc=riscv64-linux-gnu-gcc static=-static emulator=qemu-riscv64 ;;
*) echo "cross: no platform is named $platform" >&2; exit 1 ;;
esac
