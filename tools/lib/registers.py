"""The custom registers: names and meanings after the Amiga Hardware Reference Manual, third edition."""
from __future__ import annotations

from dataclasses import dataclass

# a field of a word: its highest bit, its lowest bit and its name
Field = tuple[int, int, str]


@dataclass(frozen=True)
class Register:
    """A register's offset from DFF000, its name, what it is for, and how its word is read.

    `form` is `fields`, `set` (bit 15 says whether the other 1 bits are set or cleared), `colour`, `size` (height and
    width of a blit), `start` and `stop` (line and position of the display window), `strobe` (the word does not
    matter) or `word`.
    """

    offset: int
    name: str
    says: str
    form: str = "word"
    fields: tuple[Field, ...] = ()


def flags(first: int, *names: str) -> tuple[Field, ...]:
    """Fields of one bit each, from bit `first` downwards."""
    return tuple((first - at, first - at, name) for at, name in enumerate(names))


DMA = flags(10, "BLTPRI", "DMAEN", "BPLEN", "COPEN", "BLTEN", "SPREN", "DSKEN") + flags(
    3, "AUD3EN", "AUD2EN", "AUD1EN", "AUD0EN"
)
INTERRUPTS = flags(13, "EXTER", "DSKSYN", "RBF", "AUD3", "AUD2", "AUD1", "AUD0", "BLIT", "VERTB", "COPER") + flags(
    3, "PORTS", "SOFT", "DSKBLK", "TBE"
)
COLLISIONS = (
    *flags(14, "sprites 4-6", "sprites 2-6", "sprites 2-4", "sprites 0-6", "sprites 0-4", "sprites 0-2"),
    *((8 - n, 8 - n, f"playfield 2-sprite {6 - 2 * n}") for n in range(4)),
    *((4 - n, 4 - n, f"playfield 1-sprite {6 - 2 * n}") for n in range(4)),
    (0, 0, "playfields 1-2"),
)
BLITTER_CONTROL = ((15, 12, "ASH"), *flags(11, "USEA", "USEB", "USEC", "USED"), (7, 0, "LF"))
BLITTER_CONTROL_1 = ((15, 12, "BSH"), *flags(4, "EFE", "IFE", "FCI", "DESC", "LINE"))
PLANES = (
    (15, 15, "HIRES"),
    (14, 12, "BPU"),
    *flags(11, "HOMOD", "DBLPF"),
    (9, 9, "COLOR"),
    (8, 8, "GAUD"),
    *flags(3, "LPEN", "LACE", "ERSY"),
)
COLLISION_CONTROL = (
    *flags(15, "ENSP7", "ENSP5", "ENSP3", "ENSP1"),
    *flags(11, "ENBP6", "ENBP5", "ENBP4", "ENBP3", "ENBP2", "ENBP1"),
    (5, 0, "MVBP"),
)
PRIORITIES = ((6, 6, "PF2PRI"), (5, 3, "PF2P"), (2, 0, "PF1P"))

READING = (
    Register(0x002, "DMACONR", "DMA control and blitter status", "fields", flags(14, "BBUSY", "BZERO") + DMA),
    Register(0x004, "VPOSR", "beam: long field, top bit of the line", "fields", ((15, 15, "LOF"), (0, 0, "V8"))),
    Register(0x006, "VHPOSR", "beam: line and clock", "fields", ((15, 8, "line"), (7, 0, "clock"))),
    Register(0x00A, "JOY0DAT", "joystick or mouse at port 0"),
    Register(0x00C, "JOY1DAT", "joystick or mouse at port 1"),
    Register(0x00E, "CLXDAT", "collisions since the last read, cleared by the read", "fields", COLLISIONS),
    Register(0x01C, "INTENAR", "enabled interrupts", "fields", ((14, 14, "INTEN"), *INTERRUPTS)),
    Register(0x01E, "INTREQR", "requested interrupts", "fields", INTERRUPTS),
)

CONTROL = (
    Register(0x02A, "VPOSW", "beam: long field", "fields", ((15, 15, "LOF"),)),
    Register(0x02E, "COPCON", "Copper: may it write the blitter's registers", "fields", ((1, 1, "CDANG"),)),
    Register(0x088, "COPJMP1", "the Copper starts at its first list", "strobe"),
    Register(0x08A, "COPJMP2", "the Copper starts at its second list", "strobe"),
    Register(0x08E, "DIWSTRT", "display window: upper left", "start"),
    Register(0x090, "DIWSTOP", "display window: lower right", "stop"),
    Register(0x092, "DDFSTRT", "bitplane fetch: first clock", "fields", ((7, 2, "clock / 4"),)),
    Register(0x094, "DDFSTOP", "bitplane fetch: last clock", "fields", ((7, 2, "clock / 4"),)),
    Register(0x096, "DMACON", "DMA control", "set", DMA),
    Register(0x098, "CLXCON", "collisions: sprites and planes that count", "fields", COLLISION_CONTROL),
    Register(0x09A, "INTENA", "enables interrupts", "set", ((14, 14, "INTEN"), *INTERRUPTS)),
    Register(0x09C, "INTREQ", "requests interrupts", "set", INTERRUPTS),
    Register(0x100, "BPLCON0", "bitplanes: number and mode", "fields", PLANES),
    Register(0x102, "BPLCON1", "bitplanes: scroll", "fields", ((7, 4, "PF2H"), (3, 0, "PF1H"))),
    Register(0x104, "BPLCON2", "priorities of playfields", "fields", PRIORITIES),
    Register(0x108, "BPL1MOD", "modulo of odd planes"),
    Register(0x10A, "BPL2MOD", "modulo of even planes"),
)

BLITTER = (
    Register(0x040, "BLTCON0", "blitter: channels, function, shift of A", "fields", BLITTER_CONTROL),
    Register(0x042, "BLTCON1", "blitter: line, fill, direction, shift of B", "fields", BLITTER_CONTROL_1),
    Register(0x044, "BLTAFWM", "blitter: mask of A's first word"),
    Register(0x046, "BLTALWM", "blitter: mask of A's last word"),
    Register(0x058, "BLTSIZE", "blitter: size, and its start", "size"),
    *(Register(0x060 + 2 * at, f"BLT{name}MOD", f"blitter: modulo of {name}") for at, name in enumerate("CBAD")),
    *(Register(0x070 + 2 * at, f"BLT{name}DAT", f"blitter: data of {name}") for at, name in enumerate("CBA")),
)


def pointer(offset: int, name: str, says: str) -> tuple[Register, Register]:
    """The two halves of a pointer into chip memory."""
    return Register(offset, name + "H", says + ", high"), Register(offset + 2, name + "L", says + ", low")


def pointers() -> list[Register]:
    """Each pointer, high half and low half."""
    blitter = enumerate("CBAD")
    pairs = [pointer(0x048 + 4 * at, f"BLT{name}PT", f"blitter: address of {name}") for at, name in blitter]
    pairs += [pointer(0x080, "COP1LC", "Copper: first list"), pointer(0x084, "COP2LC", "Copper: second list")]
    pairs += [pointer(0x0E0 + 4 * n, f"BPL{n + 1}PT", f"bitplane {n + 1}: address") for n in range(6)]
    pairs += [pointer(0x120 + 4 * n, f"SPR{n}PT", f"sprite {n}: address") for n in range(8)]
    return [half for pair in pairs for half in pair]


def sprite(number: int) -> list[Register]:
    """The four registers of a sprite."""
    at, place = 0x140 + 8 * number, ((15, 8, "first line, low"), (7, 0, "position / 2"))
    control = ((15, 8, "end line, low"), *flags(7, "ATT"), *flags(2, "SV8", "EV8", "SH0"))
    return [
        Register(at, f"SPR{number}POS", f"sprite {number}: first line and position", "fields", place),
        Register(at + 2, f"SPR{number}CTL", f"sprite {number}: end line; disarms it", "fields", control),
        Register(at + 4, f"SPR{number}DATA", f"sprite {number}: low bits; arms it"),
        Register(at + 6, f"SPR{number}DATB", f"sprite {number}: high bits"),
    ]


def all_registers() -> list[Register]:
    """The registers, by offset."""
    made = [*READING, *CONTROL, *BLITTER, *pointers()]
    made += [Register(0x110 + 2 * n, f"BPL{n + 1}DAT", f"bitplane {n + 1}: data") for n in range(6)]
    made += [part for number in range(8) for part in sprite(number)]
    made += [Register(0x180 + 2 * n, f"COLOR{n:02}", f"colour {n}", "colour") for n in range(32)]
    return sorted(made, key=lambda register: register.offset)


def register_data() -> dict[str, list]:
    """The table as a page reads it: offset to name, what it is for, form and fields."""
    return {f"{one.offset:03x}": [one.name, one.says, one.form, one.fields] for one in all_registers()}
