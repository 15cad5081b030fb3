"""A ROM that starts an image in an emulator of the UAE family, so that no Kickstart is needed: it copies the image to
the begin of chip memory, clears the rest, writes registers where some are named, and goes to the image's first instruction
as a reset does."""
from __future__ import annotations

import struct
from typing import Sequence

from script_reader import USUAL_CHIP

ROM_BYTES = 0x80000
BASE = 0x1000000 - ROM_BYTES
CODE_AT, IMAGE_AT = 0x100, 0x1000
MOST_IMAGE = ROM_BYTES - IMAGE_AT - 0x100
BLTSIZE = 0x058
# a register's number and the word that is written
Poke = tuple[int, int]


def boot_rom(image: bytes, chip: int = USUAL_CHIP, pokes: Sequence[Poke] = ()) -> bytes:
    """The ROM for an image, and a machine with so many bytes of chip memory, whose registers get these words in turn."""
    whole = image + bytes(-len(image) % 4)
    assert 8 <= len(whole) <= MOST_IMAGE, "the image is too long for a ROM"
    rom = bytearray(ROM_BYTES)
    # what the reset reads: a stack that is not used, and the first instruction
    rom[:8] = struct.pack(">II", 0x11144EF9, BASE + CODE_AT)
    code = b"".join(word.to_bytes(2, "big") for word in boot_code(whole, chip, pokes))
    assert CODE_AT + len(code) <= IMAGE_AT, "there are too many pokes for a ROM"
    rom[CODE_AT : CODE_AT + len(code)] = code
    rom[IMAGE_AT : IMAGE_AT + len(whole)] = whole
    # the machine takes the numbers of the interrupts' vectors from the last words of its ROM
    rom[-16:] = struct.pack(">8H", *range(24, 32))
    rom[-20:-16] = struct.pack(">I", ROM_BYTES)
    rom[-24:-20] = struct.pack(">I", 0xFFFFFFFF - sum_with_carry(bytes(rom)))
    return bytes(rom)


def boot_code(image: bytes, chip: int, pokes: Sequence[Poke] = ()) -> list[int]:
    """The instructions, for an image of whole longs, a size of chip memory, and words for registers."""
    stack, start = struct.unpack_from(">II", image)
    copied, cleared = len(image) // 4, (chip - len(image)) // 4
    return [
        *(0x13FC, 0x0003, 0x00BF, 0xE201),  # move.b #3,bfe201
        *(0x13FC, 0x0002, 0x00BF, 0xE001),  # move.b #2,bfe001: chip memory in place of the ROM at 0
        *(0x41F9, *halves(BASE + IMAGE_AT)),  # lea image,a0
        *(0x43F8, 0x0000),  # lea 0,a1
        *(0x203C, *halves(copied)),  # move.l #copied,d0
        *(0x22D8, 0x5380, 0x66FA),  # move.l (a0)+,(a1)+; subq.l #1,d0; bne
        *(0x203C, *halves(cleared)),  # move.l #cleared,d0
        *(0x4299, 0x5380, 0x66FA),  # clr.l (a1)+; subq.l #1,d0; bne
        *(word for poke in pokes for word in poke_code(*poke)),
        *(0x91C8, 0x93C9),  # suba.l a0,a0; suba.l a1,a1
        *(0x2E7C, *halves(stack)),  # movea.l #stack,a7
        *(0x4EF9, *halves(start)),  # jmp start
    ]


def poke_code(register: int, value: int) -> list[int]:
    """The instructions that write a register's word; behind one that starts a blit they wait until it is done."""
    written = [0x33FC, value, 0x00DF, 0xF000 + register]  # move.w #value,dff000+register
    done = [0x0839, 0x0006, 0x00DF, 0xF002, 0x66F6]  # btst #6,dff002; bne
    return written + (done if register == BLTSIZE else [])


def halves(value: int) -> tuple[int, int]:
    return value >> 16 & 0xFFFF, value & 0xFFFF


def sum_with_carry(rom: bytes) -> int:
    """The sum of the longs, each carry added again."""
    total = 0
    for (value,) in struct.iter_unpack(">I", rom):
        total += value
        total = (total & 0xFFFFFFFF) + (total >> 32)
    return total
