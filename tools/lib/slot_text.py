"""The clocks of a log of slots as lines of text: seven words each, parted by one space, for grep and awk."""
from __future__ import annotations

from collections.abc import Iterator

from slots import (AUDIO, BLIT_READ, BLIT_WRITE, CODES, CONTROL, CONTROL_SECOND, COPPER, DISK_WRITE, IMAGE, IMAGE_SECOND, PLANE, READ, READ_REGISTER,
                   REST, WRITE, WRITE_HIGH, WRITE_LOW, WRITE_REGISTER, SlotFrame, Space)

# where the processor has the registers, and where a text has nothing to say
REGISTERS, NOTHING = 0xDFF000, "-"
SPRITE_WORDS = {CONTROL: "POS", CONTROL_SECOND: "CTL", IMAGE: "DATA", IMAGE_SECOND: "DATB"}


def all_purposes() -> dict[int, str]:
    """What each code's slot is for, in one word."""
    made = {code: NOTHING for code in CODES}
    made |= {REST: "rest", COPPER: "read", BLIT_READ: "read", BLIT_WRITE: "write", READ: "read", WRITE: "write", WRITE_HIGH: "write-high"}
    made |= {WRITE_LOW: "write-low", READ_REGISTER: "read-register", WRITE_REGISTER: "write-register", DISK_WRITE: "write"}
    made |= {AUDIO + channel: f"AUD{channel}" for channel in range(4)}
    made |= {PLANE + plane: f"BPL{plane}" for plane in range(1, 7)}
    made |= {first + sprite: f"SPR{sprite}{word}" for first, word in SPRITE_WORDS.items() for sprite in range(8)}
    return made


PURPOSES = all_purposes()
OWNER_NAMES = {code: CODES[code].owner_name.lower() for code in CODES}
# owner and purpose of each code, with what parts them from the words beside
WHO = {code: f" {OWNER_NAMES[code]} {PURPOSES[code]} " for code in CODES}
NOWHERE = {code for code in CODES if CODES[code].space == Space.NONE}
IN_REGISTERS = {code for code in CODES if CODES[code].space == Space.REGISTER}


def place_text(code: int, address: int) -> str:
    """The address of an access: that of a word of memory, or of a register as the processor has it."""
    if code in NOWHERE:
        return NOTHING
    return f"{REGISTERS + address if code in IN_REGISTERS else address:06x}"


def frame_text(frame: SlotFrame, lines: range) -> Iterator[str]:
    """Frame, line, clock, owner, purpose, address and word of each clock of these lines of a frame."""
    for line in frame.lines():
        if line.line not in lines:
            continue
        start = f"{frame.number} {line.line} "
        for clock, (code, address, word) in enumerate(zip(line.codes, line.addresses, line.words)):
            said = "- -" if code in NOWHERE else f"{place_text(code, address)} {word:04x}"
            yield f"{start}{clock}{WHO[code]}{said}\n"
