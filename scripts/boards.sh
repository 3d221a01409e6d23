# The processors that the library is compiled for, for scripts/boards and scripts/boards-test to read.
#   compiler TRIPLE    the C compiler whose programs link its archive (Debian's packages)
#   emulator TRIPLE    the program that runs such a program here; nothing on x86-64
#   flags TRIPLE       what the kit's compiler is told of the processor, beside the triple
# shellcheck shell=bash disable=SC2034
triples=(x86_64-unknown-linux-gnu aarch64-unknown-linux-gnu armv7-unknown-linux-gnueabihf riscv64-unknown-linux-gnu)
packages=(gcc libc6-dev gcc-aarch64-linux-gnu libc6-dev-arm64-cross gcc-arm-linux-gnueabihf libc6-dev-armhf-cross gcc-riscv64-linux-gnu
    libc6-dev-riscv64-cross qemu-user)

compiler() {
    case $1 in
    x86_64-*) echo gcc ;;
    aarch64-*) echo aarch64-linux-gnu-gcc ;;
    armv7-*) echo arm-linux-gnueabihf-gcc ;;
    riscv64-*) echo riscv64-linux-gnu-gcc ;;
    esac
}

emulator() {
    case $1 in
    x86_64-*) ;;
    aarch64-*) echo qemu-aarch64 ;;
    armv7-*) echo qemu-arm ;;
    riscv64-*) echo qemu-riscv64 ;;
    esac
}

flags() {
    case $1 in
    x86_64-*) echo -march=x86-64 -mllvm -no-x86-call-frame-opt ;;
    aarch64-*) echo -march=armv8-a ;;
    armv7-*) echo -march=armv7-a -mfpu=vfpv3-d16 ;;
    riscv64-*) echo -march=rv64gc ;;
    esac
}
