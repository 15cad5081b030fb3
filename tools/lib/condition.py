"""What is asked of a state of a run: a condition of its place, a register's word, or the sum of its memory."""
from __future__ import annotations

import operator
import re
from dataclasses import dataclass
from typing import Callable

from registers import DMA
from rewind import State

OPERATORS = {"==": operator.eq, "!=": operator.ne, "<=": operator.le, ">=": operator.ge, "<": operator.lt, ">": operator.gt}
NUMBERS: dict[str, Callable[[State], int]] = {
    "FRAME": lambda state: state.beam[0],
    "LINE": lambda state: state.beam[1],
    "CLOCK": lambda state: state.beam[2],
    "LOF": lambda state: state.long,
    "SUM": lambda state: state.sum,
}
WORDS: dict[str, Callable[[State], int]] = {"DMACON": lambda state: state.dmacon, "COLOR00": lambda state: state.color00}
BITS = {name: 1 << high for high, _, name in DMA}
FORM = re.compile(r"\s*(\w+)\s*(?:&\s*(\w+)\s*)?(?:([=!<>]=|<|>)\s*(\w+)\s*)?", re.ASCII)
WORD = re.compile(r"[0-9a-f]{4}")


class BadCondition(Exception):
    """Why a text is no condition."""


@dataclass(frozen=True)
class Condition:
    """A value of a state, masked, and what it is compared with."""

    text: str
    value: Callable[[State], int]
    mask: int
    compare: Callable[[int, int], bool]
    other: int

    def holds(self, state: State) -> bool:
        return self.compare(self.value(state) & self.mask, self.other)


def word(text: str) -> int:
    """A word of four digits, as the trace has it."""
    if not WORD.fullmatch(text):
        raise BadCondition(f"'{text}' is no word of four hexadecimal digits in lower case, as 0f00")
    return int(text, 16)


def mask_of(name: str, text: str | None) -> int:
    """The bits that count, which a word names, or for DMACON the name of one of its bits; all where none are named."""
    if text is None:
        return -1
    if name not in WORDS:
        raise BadCondition(f"{name} has no bits that are named: & stands behind {' and '.join(WORDS)}")
    return BITS[text] if name == "DMACON" and text in BITS else word(text)


def number(name: str, text: str) -> int:
    """What a value of this name is compared with."""
    if name in WORDS:
        return word(text)
    if not text.isdigit():
        raise BadCondition(f"'{text}' is no decimal number, and {name} is one")
    return int(text)


def condition(text: str) -> Condition:
    """The condition that a text is; BadCondition where it is none."""
    match = FORM.fullmatch(text)
    if not match or not (match[2] or match[3]):
        raise BadCondition(f"'{text}' is not NAME OP VALUE, NAME & BITS or NAME & BITS OP VALUE, as COLOR00 == 0f00")
    name, bits, sign, other = match.groups()
    if name not in NUMBERS and name not in WORDS:
        raise BadCondition(f"'{name}' is none of {', '.join([*NUMBERS, *WORDS])}")
    compare, than = (OPERATORS[sign], number(name, other)) if sign else (operator.ne, 0)
    return Condition(text.strip(), {**NUMBERS, **WORDS}[name], mask_of(name, bits), compare, than)
