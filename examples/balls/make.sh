#!/usr/bin/env bash
# Makes `image` of this example from balls.s, beside itself. Wanted are Debian's binutils for the 68000:
# apt-get install --no-install-recommends binutils-m68k-linux-gnu
set -eu
cd "$(dirname "$(readlink -f "${BASH_SOURCE[0]}")")"
made=$(mktemp -d)
trap 'rm -rf "$made"' EXIT
m68k-linux-gnu-as -m68000 -o "$made/balls.o" balls.s
m68k-linux-gnu-ld -Ttext=0 -e 0 -o "$made/balls.elf" "$made/balls.o"
m68k-linux-gnu-objcopy -O binary "$made/balls.elf" "$made/image"
cp --no-preserve=mode "$made/image" image
