"""A save state of a UAE-family emulator (.uss) as a `State`."""
from __future__ import annotations

import struct
import zlib
from dataclasses import dataclass

from faults import BadFile
from uae_blit import finish_blit
from uae_instruction import Begun, read_begun, restarted
from uae_state import BLIT, MEMORY_SIZES, STOP_OPCODE, VERTB, Cia, State

PACKED = 1
HEADING = 12
PROCESSOR = 68000
# UAE's clock of the beam runs ahead of the register's
CLOCK_AHEAD = 4
BLIT_UNDER_WAY = 2
TOD_RUNS = 2
LACE = 0x0004
IN_STOP = 1
WANTED = ("CPU ", "CHIP", "CIAA", "CIAB", "CRAM", "BLIT", *(f"SPR{n}" for n in range(8)))
# the least that each must hold; later versions may add to the end
LEAST = {"CPU ": 90, "CHIP": 356, "CIAA": 28, "CIAB": 28, "BLIT": 4, "BLTX": 48, "CPUT": 118}
OTHER_MEMORY = {"BRAM": "slow memory at C00000", "FRAM": "fast memory", "ZRAM": "fast memory", "A3K1": "fast memory"}


@dataclass(frozen=True)
class Chunk:
    """A part of a save state, unpacked; its numbers have their high byte first."""

    body: bytes

    def number(self, at: int, size: int) -> int:
        return int.from_bytes(self.body[at : at + size], "big")

    def byte(self, at: int) -> int:
        return self.body[at]

    def word(self, at: int) -> int:
        return self.number(at, 2)

    def long(self, at: int) -> int:
        return self.number(at, 4)


def is_save_state(start: bytes) -> bool:
    """Whether a file that begins so is a save state."""
    return start.startswith(b"ASF ")


def read_chunks(path: str, data: bytes) -> dict[str, Chunk]:
    """The chunks up to the first `END `, by their names."""
    chunks: dict[str, Chunk] = {}
    at = 0
    while data[at : at + 4] != b"END ":
        if at + HEADING > len(data):
            raise BadFile(path, f"is cut short: no END chunk in its {len(data):,} bytes")
        length, flags = struct.unpack_from(">II", data, at + 4)
        name = data[at : at + 4].decode("latin-1")
        if length < HEADING or at + length > len(data):
            said = f"chunk '{name.strip()}' at byte {at:,} has {length:,} bytes"
            raise BadFile(path, f"is cut short or broken: {said}, and the file ends at byte {len(data):,}")
        chunks[name] = Chunk(unpacked(path, name, data[at + HEADING : at + length], flags))
        # one to four bytes stand between two chunks
        at += length + 4 - length % 4
    return chunks


def unpacked(path: str, name: str, body: bytes, flags: int) -> bytes:
    """The bytes that a chunk stands for."""
    if not flags & PACKED:
        return body
    size = int.from_bytes(body[:4], "big")
    try:
        made = zlib.decompress(body[4:])
    except zlib.error as fault:
        raise BadFile(path, f"is broken: chunk '{name.strip()}' cannot be unpacked ({fault})") from fault
    if len(made) != size:
        raise BadFile(path, f"is broken: chunk '{name.strip()}' has {len(made):,} bytes, not {size:,}")
    return made


def read_save_state(path: str, data: bytes) -> State:
    """The state in a save state's bytes; BadFile says why one cannot be used."""
    chunks = read_chunks(path, data)
    for name in WANTED:
        if name not in chunks:
            raise BadFile(path, f"is broken: it has no chunk '{name.strip()}'")
    for name, least in LEAST.items():
        if name in chunks and len(chunks[name].body) < least:
            raise BadFile(path, f"is broken: chunk '{name.strip()}' has {len(chunks[name].body)} bytes, not {least}")
    model = chunks["CPU "].long(0)
    if model != PROCESSOR:
        raise BadFile(path, f"is of a machine with a {model} processor; only the 68000 can go on")
    memory = bytearray(chunks["CRAM"].body)
    if len(memory) not in MEMORY_SIZES:
        sizes = " or ".join(f"{size // 1024:,}" for size in MEMORY_SIZES)
        said = f"{len(memory) // 1024:,} KiB of chip memory, not {sizes}"
        raise BadFile(path, f"is of a machine with {said}: only these sizes can go on")
    return state_of(path, chunks, memory)


def state_of(path: str, chunks: dict[str, Chunk], memory: bytearray) -> State:
    """The state that good chunks tell."""
    chip = chunks["CHIP"]
    words = custom_words(chunks)
    above, below = chip.word(4 + 0x004), chip.word(4 + 0x006)
    cpu = chunks["CPU "]
    state = State(
        path=path,
        memory=memory,
        registers=[cpu.long(8 + 4 * n) for n in range(15)],
        usp=cpu.long(76),
        ssp=cpu.long(80),
        pc=cpu.long(68),
        sr=cpu.word(84),
        line=(above & 7) << 8 | below >> 8,
        clock=max(0, (below & 0xFF) - CLOCK_AHEAD),
        # the emulator changes from field to field after the save
        long_field=(above >> 15 == 1) != bool(words[0x100] & LACE),
        words=words,
        armed=tuple(bool(chunks[f"SPR{n}"].byte(24) & 1) for n in range(8)),
        mice=(chip.word(4 + 0x00A), chip.word(4 + 0x00C)),
        cias=(cia(chunks["CIAA"]), cia(chunks["CIAB"])),
        chip_set=chip.long(0),
        other_memory=tuple(says for name, says in OTHER_MEMORY.items() if name in chunks and any(chunks[name].body)),
    )
    if state.line == 0 and state.clock == 0:
        # the field's own interrupt comes with its first clock, which is still to come
        words[0x09C] |= VERTB
    if chunks["BLIT"].long(0) & BLIT_UNDER_WAY:
        words[0x09C] |= BLIT
        if "BLTX" in chunks:
            finish_blit(state, chunks["BLTX"].body)
    restart(state, chunks)
    return state


def restart(state: State, chunks: dict[str, Chunk]) -> None:
    """Sets the processor to the begin of what is under way: a cycle-exact state lies inside an instruction."""
    if chunks["CPU "].long(86) & IN_STOP:
        state.pc -= 4
        if state.word_at(state.pc & 0xFFFFFE) != STOP_OPCODE:
            raise BadFile(state.path, f"says that the processor is stopped, and has no STOP at {state.pc:06x}")
        return
    traced = chunks.get("CPUT")
    begun: Begun | None = read_begun(state.path, traced.body) if traced else None
    if begun:
        restarted(state, begun)


def custom_words(chunks: dict[str, Chunk]) -> dict[int, int]:
    """The custom registers' words, by offset. The chunk CHIP leaves sound and sprites to chunks of their own."""
    chip = chunks["CHIP"]
    words = {at: chip.word(4 + at) for at in range(0, 0x0A0, 2)}
    words |= {at: chip.word(164 + at - 0x0E0) for at in range(0x0E0, 0x120, 2)}
    words |= {at: chip.word(228 + at - 0x180) for at in range(0x180, 0x200, 2)}
    for n in range(8):
        sprite = chunks[f"SPR{n}"]
        words |= {0x120 + 4 * n + at: sprite.word(at) for at in (0, 2)}
        words |= {0x140 + 8 * n + at: sprite.word(4 + at) for at in (0, 2, 4, 6)}
    for n in range(4):
        sound = chunks.get(f"AUD{n}")
        if sound and len(sound.body) >= 16:
            at = 0x0A0 + 16 * n
            words |= {at: sound.word(12), at + 2: sound.word(14), at + 4: sound.word(4)}
            words |= {at + 6: sound.word(8), at + 8: sound.byte(1)}
    return words


def cia(chunk: Chunk) -> Cia:
    """A CIA's chunk. Counters have their high byte first, latches and the time of day their low byte."""

    def low_first(at: int, size: int) -> int:
        return int.from_bytes(chunk.body[at : at + size], "little")

    return Cia(
        ports=(chunk.byte(0), chunk.byte(1), chunk.byte(2), chunk.byte(3)),
        counters=(chunk.word(4), chunk.word(6)),
        latches=(low_first(17, 2), low_first(19, 2)),
        controls=(chunk.byte(14), chunk.byte(15)),
        pending=chunk.byte(13) & 0x1F,
        mask=chunk.byte(16) & 0x1F,
        tod=low_first(8, 3),
        alarm=low_first(24, 3),
        tod_runs=bool(chunk.byte(27) & TOD_RUNS),
        serial=chunk.byte(12),
    )
