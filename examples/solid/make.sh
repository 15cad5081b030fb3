#!/usr/bin/env bash
# Makes `image` of this example from solid.c, beside itself. Wanted are Debian's compiler and binutils for the 68000:
# apt-get install --no-install-recommends gcc-m68k-linux-gnu binutils-m68k-linux-gnu
set -eu
cd "$(dirname "$(readlink -f "${BASH_SOURCE[0]}")")"
made=$(mktemp -d)
trap 'rm -rf "$made"' EXIT
m68k-linux-gnu-gcc -m68000 -O2 -Wall -Wextra -ffreestanding -fno-pic -fomit-frame-pointer \
  -fno-tree-loop-distribute-patterns -nostdlib -static -Wl,-T,image.ld -Wl,--build-id=none \
  -Wl,--orphan-handling=error -Wl,--no-warn-rwx-segments \
  -o "$made/solid.elf" solid.c
m68k-linux-gnu-objcopy -O binary "$made/solid.elf" "$made/image"
cp --no-preserve=mode "$made/image" image
