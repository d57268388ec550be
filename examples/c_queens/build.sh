#!/bin/sh
# Builds guest.elf from guest.c with clang and lld. -ffreestanding and -nostdlib: no library; -mips2: the 32-bit integer instructions of the R4000.
set -e
cd "$(dirname "$0")"
clang --target=mips-none-elf -mips2 -mno-abicalls -msoft-float -G0 -ffreestanding -fno-pic -fno-unwind-tables \
    -fno-asynchronous-unwind-tables -nostdlib -O2 -c guest.c -o guest.o
ld.lld -N -T guest.ld --strip-all guest.o -o guest.elf
rm guest.o
