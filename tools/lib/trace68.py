"""What the 68000 did, instruction by instruction, of a log of slots alone: its accesses stand in the order in which an instruction makes
them, so the words that it read say what comes next. Accesses to a CIA, and to where nothing is, have no slot and so no record."""
from __future__ import annotations

from collections.abc import Iterator
from dataclasses import dataclass
from itertools import product
from typing import NamedTuple

from disassembly import Kind, disassemble, extension, kind_of, length, operand_size, words_before
from m68000 import AN, DN, IMMEDIATE, IND, LISTS, LONG, MOVE_TO, PC_DISP, PC_INDEX, SHORT, FAR, WORD, signed
from slots import OWNER_OF, READ, READ_REGISTER, WRITE, WRITE_HIGH, WRITE_LOW, WRITE_REGISTER, SlotFrame

READS, WRITES = (READ, READ_REGISTER), (WRITE, WRITE_HIGH, WRITE_LOW, WRITE_REGISTER)
PROCESSOR = 8
IN_MEMORY = range(IND, PC_INDEX + 1)
WRITTEN = ("alone", "from_sr", "nbcd", "tas", "scc", "quick", "from_dn", "shift_memory")
# a program's word, or a word of an operand that is read or written, and which operand
PROGRAM, READ_STEP, WRITE_STEP = "p", "r", "w"
Step = tuple[str, int]
# an instruction with what follows it has fewer accesses than this
FAR_ENOUGH = 128
# as many instructions after one another are no chance
CERTAIN = 12
# an instruction that an exception ends has made at most this many accesses
BROKEN_OFF = 16
FIRST_INTERRUPT, LAST_INTERRUPT, VECTORS_END, ADDRESS_ERROR = 25, 31, 0x400, 3
# idle colour clocks at the end of an exception's entry: of an interrupt, and of others at least
INTERRUPT_IDLE, ENTRY_IDLE = 12, 5


class Access(NamedTuple):
    """An access of the processor: its clock from the log's begin and its place, its code, address and word, and how many clocks right
    before it were others'."""

    at: int
    frame: int
    line: int
    clock: int
    code: int
    address: int
    word: int
    others: int


@dataclass(frozen=True)
class Done:
    """An instruction, or an exception's entry, that was made: where it began, its address or -1, its text, and the clocks that its
    accesses waited for a slot."""

    first: Access
    address: int
    text: str
    waited: int


class Parsed(NamedTuple):
    """An instruction: its words, how many accesses it has, its least idle clocks at the end, and where it goes on; None is anywhere."""

    words: tuple[int, ...]
    accesses: int
    idle: int
    after: tuple[int, ...] | None


def accesses_of(frame: SlotFrame, start: int, others: int) -> Iterator[Access]:
    """The processor's accesses of a frame that begins at a clock, when so many clocks before it were others'."""
    for line in frame.lines():
        for clock, code in enumerate(line.codes):
            owner = OWNER_OF[code]
            if owner == PROCESSOR:
                yield Access(start + clock, frame.number, line.line, clock, code, line.addresses[clock], line.words[clock], others)
            others = 0 if owner in (0, PROCESSOR) else others + 1
        start += len(line.codes)


def repeated(step: str, operand: int, count: int) -> list[Step]:
    return [(step, operand)] * count


def steps_of(kind: Kind, mask: int) -> list[Step]:
    """The accesses of an instruction after its opcode, in order; `mask` is its second word, which names the registers of MOVEM."""
    f, method = kind.fields, kind.method
    count = 2 if operand_size(kind) == LONG and method != "pair_decimal" else 1
    made = repeated(PROGRAM, 0, words_before(kind))
    if method == "movep":
        return made + repeated(WRITE_STEP if f.o else READ_STEP, 1, 4 if f.l else 2)
    if method in FIXED:
        return made + FIXED[method]
    if method in ("pair", "pair_decimal") and f.m or method == "cmpm":
        made += repeated(READ_STEP, 1, count) + repeated(READ_STEP, 2, count)
        return made + repeated(WRITE_STEP, 2, count if method != "cmpm" else 0)
    if method == "branch":
        return made + repeated(WRITE_STEP, 1, 2 if f.c == 1 else 0)
    if not hasattr(f, "e"):
        return made
    made += repeated(PROGRAM, 0, extension(f.mode, operand_size(kind)))
    if method == "address":
        return made + repeated(WRITE_STEP, 1, 2 if kind.which in ("pea", "jsr") else 0)
    if method == "movem":
        return made + repeated(WRITE_STEP if kind.which == "save" else READ_STEP, 1, mask.bit_count() * (2 if f.size == LONG else 1))
    return made + operand_steps(kind, count)


FIXED = {"rts": repeated(READ_STEP, 1, 2), "unlk": repeated(READ_STEP, 1, 2), "rte": repeated(READ_STEP, 1, 3),
         "rtr": repeated(READ_STEP, 1, 3), "link": repeated(WRITE_STEP, 1, 2)}


def operand_steps(kind: Kind, count: int) -> list[Step]:
    """The accesses of operands in memory."""
    f, made = kind.fields, list[Step]()
    if f.mode in IN_MEMORY:
        made += repeated(READ_STEP, 1, count)
        if kind.method in WRITTEN or (kind.method, kind.which) in CHANGING:
            made += repeated(WRITE_STEP, 1, count)
    if kind.method == "move":
        made += repeated(PROGRAM, 0, extension(f.to, f.size))
        made += repeated(WRITE_STEP, 2, count if f.to in IN_MEMORY else 0)
    return made


CHANGING = {("immediate", which) for which in ("or", "and", "sub", "add", "eor")} | {("bit", which) for which in ("change", "clear", "set")}


def least_clocks(kind: Kind, mask: int, sequential: bool) -> int:
    """The least number of the processor's clocks of an instruction; of MULU, MULS, a shift by a register, Scc and DBcc it can be more."""
    f, method, long = kind.fields, kind.method, kind.fields.size == LONG
    plain = getattr(f, "mode", DN) in (DN, AN, IMMEDIATE)
    more = {
        "movep": lambda: 8 * f.l, "move": lambda: MOVE_TO[f.to][long], "address": lambda: LISTS[kind.which][f.mode],
        "movem": lambda: LISTS[kind.which][f.mode] + (8 if long else 4) * mask.bit_count(), "dbcc": lambda: 2 if sequential else 0,
        "branch": lambda: 8 if f.c == 1 else 0 if not sequential or f.c == 0 else -2 if f.o else 2,
        "quick": lambda: -4 if f.mode == AN and long else 0,
        "to_dn": lambda: 2 if long and kind.which != "cmp" and plain else 0, "to_an": lambda: -2 if f.l and not plain else 0,
        "pair": lambda: (22 if long else 14) * f.m, "pair_decimal": lambda: 12 * f.m, "shift": lambda: 0 if f.i else 2 * (f.c or 8),
    }.get(method)
    return kind.clocks + (more() if more else 0)


class Follower:
    """Follows the processor through its accesses, which are fed to it frame by frame."""

    def __init__(self) -> None:
        self.accesses: list[Access] = []
        self.at = 0
        # where the next instruction may begin; None is anywhere
        self.after: tuple[int, ...] | None = None
        self.known, self.started = False, False
        # the last access of what was done before, and the idle clocks that came after it
        self.before: Access | None = None
        self.idle = 0
        self.lost = 0

    def feed(self, accesses: Iterator[Access], last: bool) -> Iterator[Done]:
        """What is done by the accesses up to these; a part of it that wants later ones waits for them."""
        self.accesses = self.accesses[self.at :] + list(accesses)
        self.at = 0
        if not self.started and self.accesses:
            self.started = True
            if not self.begin_by_reset():
                self.find_begin()
        least = 0 if last else FAR_ENOUGH
        while len(self.accesses) - self.at > least:
            done = self.next()
            if done:
                yield done

    def begin_by_reset(self) -> bool:
        """Whether the accesses are those of a reset; it goes on at the address that it read."""
        first = self.accesses[:4]
        if [(one.code, one.address) for one in first] != [(READ, at) for at in (0, 2, 4, 6)] or first[0].at > 2:
            return False
        self.after, self.known, self.at, self.before, self.idle = ((first[2].word << 16 | first[3].word),), True, 4, first[3], 12
        return True

    def find_begin(self) -> None:
        """Goes on to the first access from which on instructions follow one another."""
        while self.at < len(self.accesses):
            place, count = self.at, 0
            after: tuple[int, ...] | None = None
            while count < CERTAIN and place < len(self.accesses):
                parsed = self.instruction(place)
                if parsed is None or (after is not None and self.accesses[place].address not in after):
                    break
                place, after, count = place + parsed.accesses, parsed.after, count + 1
                entry = self.entry(place, after)
                if entry:
                    place, after = place + entry, None
            if count == CERTAIN or place >= len(self.accesses):
                return
            self.at += 1

    def next(self) -> Done | None:
        """The next instruction or entry. Where accesses are those of neither it goes on where they are again, and says so."""
        entry = self.entry(self.at, self.after)
        if entry:
            return self.take_entry(entry)
        parsed = self.instruction(self.at)
        first = self.accesses[self.at]
        if parsed is None or (self.after is not None and first.address not in self.after):
            self.lost += 1
            begin = self.at
            self.at += 1
            self.find_begin()
            self.after, self.before = None, None
            return Done(first, -1, f"({self.at - begin} accesses that are no instruction's)", 0)
        done = Done(first, first.address, disassemble(parsed.words, first.address), self.waits(parsed.accesses, self.idle))
        self.go_on(parsed.accesses, parsed.idle, parsed.after)
        return done

    def go_on(self, count: int, idle: int, after: tuple[int, ...] | None) -> None:
        self.at += count
        self.before, self.idle, self.after = self.accesses[self.at - 1], idle, after

    def waits(self, count: int, idle: int) -> int:
        """The clocks that so many accesses waited, the first of them after so many idle clocks."""
        waited, before = 0, self.before
        for access in self.accesses[self.at : self.at + count]:
            if before:
                waited += max(0, min(access.others, access.at - before.at - 2 - idle))
            before, idle = access, 0
        return waited

    def entry(self, at: int, after: tuple[int, ...] | None) -> int:
        """How many accesses an exception's entry has that begins here; 0 where none does."""
        for words in (3, 7):
            frame, vector = self.accesses[at : at + words], self.accesses[at + words : at + words + 2]
            if len(vector) < 2 or any(one.code != WRITE for one in frame) or any(one.code != READ for one in vector):
                continue
            falls = all(one.address == frame[0].address - 2 * number for number, one in enumerate(frame))
            number, odd = divmod(vector[0].address, 4)
            comes_back = words == 7 or after is None or (frame[1].word << 16 | frame[0].word) in after
            if falls and not odd and vector[1].address == vector[0].address + 2 and vector[0].address < VECTORS_END and comes_back:
                if (number == ADDRESS_ERROR) == (words == 7):
                    return words + 2
        return 0

    def take_entry(self, count: int) -> Done:
        first, (high, low) = self.accesses[self.at], self.accesses[self.at + count - 2 : self.at + count]
        vector = high.address // 4
        interrupt = FIRST_INTERRUPT <= vector <= LAST_INTERRUPT
        said = f"interrupt of level {vector - FIRST_INTERRUPT + 1}" if interrupt else f"exception by vector {vector}"
        target = high.word << 16 | low.word
        done = Done(first, -1, f"({said}, to ${target:x})", self.waits(count, 0))
        self.go_on(count, INTERRUPT_IDLE if interrupt else ENTRY_IDLE, (target,))
        return done

    def instruction(self, at: int) -> Parsed | None:
        """The instruction whose opcode is read here; None where the accesses are not its own."""
        first = self.accesses[at]
        if first.code != READ:
            return None
        kind = kind_of(first.word)
        if kind is None:
            return Parsed((first.word,), 1, 0, (first.address,)) if self.entry(at + 1, (first.address,)) else None
        mask = self.accesses[at + 1].word if at + 1 < len(self.accesses) else 0
        steps = steps_of(kind, mask)
        operands = sorted({operand for _, operand in steps if operand})
        for there in product((True, False), repeat=len(operands)):
            parsed = self.attempt(at, kind, steps, dict(zip(operands, there)))
            if parsed:
                return parsed
        return self.broken_off(at)

    def broken_off(self, at: int) -> Parsed | None:
        """The instruction, where an exception ends it before its last access: it is privileged, or an address is odd."""
        words = [self.accesses[at].word]
        for place in range(at + 1, min(at + BROKEN_OFF, len(self.accesses))):
            if self.entry(place, None):
                return Parsed(tuple(words), place - at, 0, None)
            access = self.accesses[place]
            if access.code == READ and access.address == self.accesses[at].address + 2 * len(words):
                words.append(access.word)
        return None

    def attempt(self, at: int, kind: Kind, steps: list[Step], there: dict[int, bool]) -> Parsed | None:
        """The instruction, where those of its operands have slots that are said to."""
        first, words, place = self.accesses[at], [self.accesses[at].word], at + 1
        read: list[Access] = []
        for step, operand in steps:
            if operand and not there[operand]:
                continue
            if place >= len(self.accesses):
                # the log ends in it
                return Parsed(tuple(words), place - at, 0, None)
            access = self.accesses[place]
            if step == PROGRAM:
                if access.code != READ or access.address != first.address + 2 * len(words):
                    return None
                words.append(access.word)
            elif access.code not in (READS if step == READ_STEP else WRITES):
                return None
            elif step == READ_STEP:
                read.append(access)
            place += 1
        after = goes_on(kind, tuple(words), first.address, read)
        if not self.follows(place, after):
            return None
        sequential = place < len(self.accesses) and self.accesses[place].address == first.address + 2 * len(words)
        idle = (least_clocks(kind, words[1] if len(words) > 1 else 0, sequential) - 4 * (1 + len(steps))) // 2
        return Parsed(tuple(words), place - at, max(0, idle), after)

    def follows(self, place: int, after: tuple[int, ...] | None) -> bool:
        """Whether what stands at a place can come after an instruction."""
        if place >= len(self.accesses) or self.entry(place, after):
            return True
        access = self.accesses[place]
        return access.code == READ and (after is None or access.address in after)


def goes_on(kind: Kind, words: tuple[int, ...], address: int, read: list[Access]) -> tuple[int, ...] | None:
    """Where an instruction at an address goes on, by its words and what it read; None where that is not known."""
    f, method, sequential = kind.fields, kind.method, address + 2 * length(kind)
    if method in ("branch", "dbcc"):
        by = signed(f.o, 0) if method == "branch" and f.o else signed(words[1], WORD)
        target = address + 2 + by & 0xFFFFFF
        return (target,) if method == "branch" and f.c < 2 else (target, sequential)
    if method in ("rts", "rte", "rtr"):
        return (read[-2].word << 16 | read[-1].word,) if len(read) >= 2 else None
    if method == "address" and kind.which in ("jmp", "jsr"):
        if f.mode == FAR:
            return ((words[1] << 16 | words[2]) & 0xFFFFFF,)
        if f.mode in (SHORT, PC_DISP):
            return (signed(words[1], WORD) + (address + 2 if f.mode == PC_DISP else 0) & 0xFFFFFF,)
        return None
    return (sequential,)
