"""An MC68000, from the table of its opcodes to the last idle clock of each instruction, on whatever bus it is given. It checks
the emulator's own processor, and shares nothing with it."""
from __future__ import annotations

from types import SimpleNamespace

BYTE, WORD, LONG = 0, 1, 2
BITS, MASK = (8, 16, 32), (0xFF, 0xFFFF, 0xFFFFFFFF)
# the bits of SR, and those that there are
TRACE, SUPER, X, N, Z, V, C, KEPT = 0x8000, 0x2000, 16, 8, 4, 2, 1, 0xA71F
# the registers are one list: D0 to D7, A0 to A6, and the two stack pointers
A0, USP, SSP = 8, 15, 16

# The modes: Dn, An, (An), (An)+, -(An), d16(An), d8(An,Xn), (xxx).W, (xxx).L, d16(PC), d8(PC,Xn), immediate
DN, AN, IND, POST, PRE, DISP, INDEX, SHORT, FAR, PC_DISP, PC_INDEX, IMMEDIATE = range(12)
# the number of clocks that a mode adds, for a byte or word and for a long, and what a destination of MOVE adds
EA = ((0, 0), (0, 0), (4, 8), (4, 8), (6, 10), (8, 12), (10, 14), (8, 12), (12, 16), (8, 12), (10, 14), (4, 8))
MOVE_TO = ((0, 0), (0, 0), (4, 8), (4, 8), (4, 8), (8, 12), (10, 14), (8, 12), (12, 16))
# the instructions that work on an address: their modes and numbers of clocks; MOVEM takes 4 or 8 more for each register
LISTS = {
    "pea": {IND: 12, DISP: 16, INDEX: 20, SHORT: 16, FAR: 20, PC_DISP: 16, PC_INDEX: 20},
    "jsr": {IND: 16, DISP: 18, INDEX: 22, SHORT: 18, FAR: 20, PC_DISP: 18, PC_INDEX: 22},
    "jmp": {IND: 8, DISP: 10, INDEX: 14, SHORT: 10, FAR: 12, PC_DISP: 10, PC_INDEX: 14},
    "lea": {IND: 4, DISP: 8, INDEX: 12, SHORT: 8, FAR: 12, PC_DISP: 8, PC_INDEX: 12},
    "load": {IND: 12, POST: 12, DISP: 16, INDEX: 18, SHORT: 16, FAR: 20, PC_DISP: 16, PC_INDEX: 18},
    "save": {IND: 8, PRE: 8, DISP: 12, INDEX: 14, SHORT: 12, FAR: 16},
}
CLASSES = {
    "-": (), "all": range(12), "data": (0, *range(2, 12)), "but#": (0, *range(2, 11)), "DA": (0, *range(2, 9)),
    "AL": range(9), "MA": range(2, 9), "CT": LISTS["lea"], "save": LISTS["save"], "load": LISTS["load"],
}

# The rows of opcodes: their bits, with a letter for each field (ss is a size and never 3, eeeeee mode and register); the class
# of the modes; the method that carries the instruction out, and which of its instructions it is; the number of clocks, for a
# byte or word and, behind a stroke, for a long. Behind a comma stands that of another mode than Dn. A plus says that the mode
# adds its number. A method whose number depends on more answers how much comes to it.
ROWS = """
000000000w111100 - status or 20            000000100w111100 - status and 20           000010100w111100 - status eor 20
00000000sseeeeee DA immediate or 8/16,12/20+                  00000010sseeeeee DA immediate and 8/16,12/20+
00000100sseeeeee DA immediate sub 8/16,12/20+                 00000110sseeeeee DA immediate add 8/16,12/20+
00001010sseeeeee DA immediate eor 8/16,12/20+                 00001100sseeeeee DA immediate cmp 8/14,8/12+
0000rrr100eeeeee data bit test 6,4+        0000rrr101eeeeee DA bit change 8,8+        0000rrr110eeeeee DA bit clear 10,8+
0000rrr111eeeeee DA bit set 8,8+           0000100000eeeeee but# bit test 10,8+       0000100001eeeeee DA bit change 12,12+
0000100010eeeeee DA bit clear 14,12+       0000100011eeeeee DA bit set 12,12+         0000rrr1ol001aaa - movep . 16
0001rrrmmmeeeeee all move 0 4+             0011rrrmmmeeeeee all move 1 4+             0010rrrmmmeeeeee all move 2 4/4+
01000000sseeeeee DA alone negx 4/6,8/12+   01000010sseeeeee DA alone clr 4/6,8/12+    01000100sseeeeee DA alone neg 4/6,8/12+
01000110sseeeeee DA alone not 4/6,8/12+    0100000011eeeeee DA from_sr . 6,8+         0100010011eeeeee data to_ccr . 12+
0100011011eeeeee data to_sr . 12+          0100100000eeeeee DA nbcd . 6,8+            0100100001000rrr - swap . 4
0100100001eeeeee CT address pea 0          010010001l000rrr - ext . 4                 01001010sseeeeee DA tst . 4/4+
010010001leeeeee save movem save 0         010011001leeeeee load movem load 0         0100101011eeeeee DA tas . 4,10+
010011100100vvvv - trap . 0                0100111001010rrr - link . 16               0100111001011rrr - unlk . 12
010011100110drrr - move_usp . 4            0100111001110000 - nothing reset 132       0100111001110001 - nothing nop 4
0100111001110010 - stop . 8                0100111001110011 - rte . 20                0100111001110101 - rts . 16
0100111001110110 - trapv . 4               0100111001110111 - rtr . 20                0100111010eeeeee CT address jsr 0
0100111011eeeeee CT address jmp 0          0100rrr111eeeeee CT address lea 0          0100rrr110eeeeee data chk . 10+
0101cccc11001rrr - dbcc . 10               0101cccc11eeeeee DA scc . 4,8+             0110ccccoooooooo - branch . 10
0101qqq0sseeeeee AL quick add 4/8,8/12+    0101qqq1sseeeeee AL quick sub 4/8,8/12+    0111rrr0oooooooo - moveq . 4
1000rrr0sseeeeee data to_dn or 4/6+        1100rrr0sseeeeee data to_dn and 4/6+       1001rrr0sseeeeee all to_dn sub 4/6+
1101rrr0sseeeeee all to_dn add 4/6+        1011rrr0sseeeeee all to_dn cmp 4/6+        1011rrr1ss001aaa - cmpm . 12/20
1000rrr1sseeeeee MA from_dn or 8/12+       1100rrr1sseeeeee MA from_dn and 8/12+      1001rrr1sseeeeee MA from_dn sub 8/12+
1101rrr1sseeeeee MA from_dn add 8/12+      1011rrr1sseeeeee DA from_dn eor 4/8,8/12+  1001rrr1ss00maaa - pair subx 4/8
1001rrrl11eeeeee all to_an sub 8+          1101rrrl11eeeeee all to_an add 8+          1011rrrl11eeeeee all to_an cmp 6+
1101rrr1ss00maaa - pair addx 4/8           1000rrr10000maaa - pair_decimal sbcd 6     1100rrr10000maaa - pair_decimal abcd 6
1100rrr101000aaa - exg dd 6                1100rrr101001aaa - exg aa 6                1100rrr110001aaa - exg da 6
1100rrr011eeeeee data multiply u 38+       1100rrr111eeeeee data multiply s 38+       1000rrr011eeeeee data divide u 140+
1000rrr111eeeeee data divide s 158+        1110cccdssittrrr - shift . 6/8             11100ttd11eeeeee MA shift_memory . 8+
1010oooooooooooo - refused 10 0            1111oooooooooooo - refused 11 0
""".split()


class Odd(Exception):
    """An access at an odd address: the address, whether it reads, whether it is of the program."""


class Trap(Exception):
    """An instruction that begins an exception: its vector and its number of clocks."""


class Over(Exception):
    """The end of the run, or the processor is halted."""


def signed(value: int, size: int) -> int:
    """The number of a size, with its sign."""
    return (value & MASK[size]) - (value << 1 & 1 << BITS[size])


def mode_of(bits: int) -> int:
    """The mode of the six bits; a number above 11 is none."""
    return bits >> 3 if bits < 56 else 7 + (bits & 7)


def clocks_of(numbers: str, f: SimpleNamespace) -> int:
    """The number of clocks of a row, with what the mode adds."""
    number = numbers.split(",")[0 if f.mode == DN else -1]
    long = f.size == LONG
    number, adds = number.rstrip("+"), EA[f.mode][long] if number.endswith("+") else 0
    return int(number.split("/")[-1 if long else 0]) + adds


def fits(opcode: int, text: str, modes: str, method: str, which: str, numbers: str):
    """The method, which instruction it is, its clocks and its fields, or None where the opcode is not of the row."""
    bits = f"{opcode:016b}"
    if any(have != want for have, want in zip(bits, text) if want in "01"):
        return None
    fields = {x: int("".join(bit for bit, c in zip(bits, text) if c == x), 2) for x in set(text) - set("01")}
    f = SimpleNamespace(mode=DN, n=0, **fields)
    f.size = int(which) if method == "move" else fields.get("s", WORD + fields.get("l", 0))
    if "e" in fields:
        f.mode, f.n = mode_of(f.e), f.e & 7
        if f.mode not in CLASSES[modes] or (f.mode == AN and f.size == BYTE):
            return None
    if method == "move":
        f.to = mode_of(f.m * 8 + f.r)
        if f.to not in CLASSES["AL"] or (f.to == AN and f.size == BYTE):
            return None
    return None if f.size == 3 else (method, which, clocks_of(numbers, f), f)


class Processor:
    """The processor, and what is under way in it."""

    def __init__(self, bus) -> None:
        self.bus = bus
        self.r, self.pc, self.sr = [0] * 17, 0, SUPER | 0x700
        # the accesses of what is under way, where it began, its opcode
        self.count, self.start, self.opcode = 0, 0, 0
        # whether STOP waits; whether an address error is being taken
        self.waits, self.taking = False, False
        # the exceptions whose handlers have not ended, by vector and by the instruction before them
        self.entries: list[tuple[int, int]] = []
        self.known: dict[int, tuple] = {}

    # Runs

    def run(self) -> None:
        try:
            self.r[SSP], self.pc = self.read(0, LONG), self.read(4, LONG)
            self.bus.idle((40 - 4 * self.count) // 2)
            self.end(False)
            while True:
                self.step()
        except Over:
            pass

    def step(self) -> None:
        """An instruction, or the exception that it begins, and what follows its end."""
        kept, traced = (self.r[:], self.sr), bool(self.sr & TRACE)
        self.count, self.opcode, self.start = 0, 0, self.pc
        try:
            self.opcode = self.fetch()
            self.taking = False
            clocks = self.carry_out(self.opcode)
        except Trap as trap:
            vector, clocks = trap.args
            self.enter(vector, clocks - 4 * self.count)
        except Odd as odd:
            self.r, self.sr = kept
            self.address_error(odd, True)
        else:
            self.bus.idle((clocks - 4 * self.count) // 2)
            self.end(traced)

    def carry_out(self, opcode: int) -> int:
        """Does what the opcode says, and gives its number of clocks."""
        if opcode not in self.known:
            found = (fits(opcode, *ROWS[n : n + 5]) for n in range(0, len(ROWS), 5))
            self.known[opcode] = next(filter(None, found), ("refused", "4", 0, None))
        method, which, clocks, f = self.known[opcode]
        privileged = method in ("to_sr", "move_usp", "stop", "rte") or which == "reset" or (method == "status" and f.w)
        if privileged and not self.sr & SUPER:
            self.refused("8", f)
        return clocks + (getattr(self, method)(which, f) or 0)

    def refused(self, vector, _):
        self.pc = self.start
        raise Trap(int(vector), 34)

    def end(self, traced: bool) -> None:
        """What follows at an end: a trace exception, an interrupt, or the waiting of STOP."""
        waits, self.waits = self.waits, False
        if traced:
            return self.enter(9, 34)
        while (level := self.bus.level()) <= self.sr >> 8 & 7:
            if not waits:
                return None
            self.bus.idle(1)
        self.bus.interrupted(level)
        return self.enter(24 + level, 44, level)

    def enter(self, vector: int, clocks: int, mask: int | None = None, more: tuple[int, ...] = ()) -> None:
        """Writes the frame, and goes on at the vector; the clocks are those that are left for it."""
        kept, self.count = (self.r[:], self.sr), 0
        frame = (self.pc & 0xFFFF, self.pc >> 16, self.sr, *more)
        self.entries.append((vector, self.start))
        self.sr = (self.sr | SUPER) & ~TRACE
        if mask is not None:
            self.sr = self.sr & ~0x700 | mask << 8
        try:
            for word in frame:
                self.r[SSP] = self.r[SSP] - 2 & MASK[LONG]
                self.write(self.r[SSP], WORD, word)
            self.pc = self.read(4 * vector, LONG)
        except Odd as odd:
            (self.r, self.sr), self.opcode = kept, 0
            return self.address_error(odd, vector not in (4, 8, 9, 10, 11, *range(25, 32)))
        self.bus.idle((clocks - 4 * self.count) // 2)
        return self.end(False)

    def address_error(self, odd: Odd, instruction: bool) -> None:
        at, reads, program = odd.args
        if self.taking:
            raise Over
        self.taking = True
        kind = 16 * reads + 8 * (not instruction) + (4 if self.sr & SUPER else 0) + (2 if program else 1)
        self.enter(3, 50, None, (self.opcode, at & 0xFFFF, at >> 16, kind))

    # Accesses and places

    def read(self, at, size, program=False):
        if size == LONG:
            return self.read(at, WORD, program) << 16 | self.read(at + 2, WORD, program)
        at &= MASK[LONG]
        if size == WORD and at & 1:
            raise Odd(at, True, program)
        self.count += 1
        return self.bus.read(at, size)

    def write(self, at, size, value):
        if size == LONG:
            self.write(at, WORD, value >> 16)
            return self.write(at + 2, WORD, value)
        at &= MASK[LONG]
        if size == WORD and at & 1:
            raise Odd(at, False, False)
        self.count += 1
        return self.bus.write(at, size, value & MASK[size])

    def fetch(self):
        word = self.read(self.pc, WORD, True)
        self.pc = self.pc + 2 & MASK[LONG]
        return word

    def fetch_signed(self):
        return signed(self.fetch(), WORD)

    def fetch_value(self, size):
        return self.fetch() << 16 | self.fetch() if size == LONG else self.fetch() & MASK[size]

    def an(self, n):
        """The place of An in the list of registers."""
        return A0 + n if n < 7 else SSP if self.sr & SUPER else USP

    def push(self, value):
        stack = self.r[self.an(7)] = self.r[self.an(7)] - 4 & MASK[LONG]
        self.write(stack, LONG, value)

    def pull(self, size):
        value = self.read(self.r[self.an(7)], size)
        self.r[self.an(7)] = self.r[self.an(7)] + (1 << size) & MASK[LONG]
        return value

    def indexed(self, base):
        word = self.fetch()
        n = word >> 12 & 7
        index = self.r[self.an(n) if word & 0x8000 else n]
        return base + (index if word & 0x800 else signed(index, WORD)) + signed(word, BYTE)

    def place(self, mode, n, size):
        """An operand's mode, and its register, address or value. Its words are read, and registers stepped."""
        if mode <= AN:
            return mode, n if mode == DN else self.an(n)
        if mode == IMMEDIATE:
            return mode, self.fetch_value(size)
        if mode in (SHORT, FAR):
            return mode, self.fetch_value(LONG) if mode == FAR else self.fetch_signed() & MASK[LONG]
        register, step = self.an(n), 2 if size == BYTE and n == 7 else 1 << size
        if mode == PRE:
            self.r[register] = self.r[register] - step & MASK[LONG]
        at = self.pc if mode in (PC_DISP, PC_INDEX) else self.r[register]
        if mode == POST:
            self.r[register] = at + step & MASK[LONG]
        if mode in (DISP, PC_DISP):
            at += self.fetch_signed()
        if mode in (INDEX, PC_INDEX):
            at = self.indexed(at)
        return mode, at & MASK[LONG]

    def load(self, place, size):
        mode, at = place
        if mode == IMMEDIATE:
            return at
        return self.r[at] & MASK[size] if mode <= AN else self.read(at, size, mode in (PC_DISP, PC_INDEX))

    def store(self, place, size, value):
        mode, at = place
        if mode <= AN:
            self.r[at] = self.r[at] & ~MASK[size] | value & MASK[size]
        else:
            self.write(at, size, value)

    def source(self, f, size):
        return self.load(self.place(f.mode, f.n, size), size)

    def change(self, f, size, work):
        """Reads an operand, and writes what comes of it."""
        place = self.place(f.mode, f.n, size)
        self.store(place, size, work(self.load(place, size)))

    # Flags and results

    def flags(self, **named):
        """Sets and clears flags."""
        for name, on in named.items():
            bit = {"x": X, "n": N, "z": Z, "v": V, "c": C}[name]
            self.sr = self.sr | bit if on else self.sr & ~bit

    def logic(self, value, size):
        """The value, with N and Z of it, V and C clear."""
        value &= MASK[size]
        self.flags(n=value >> BITS[size] - 1, z=value == 0, v=0, c=0)
        return value

    def operate(self, which, a, b, size):
        """What comes of the destination a and the source b, with its flags."""
        if which in ("or", "and", "eor"):
            return self.logic(a | b if which == "or" else a & b if which == "and" else a ^ b, size)
        minus, extends = which in ("sub", "subx", "cmp"), which in ("addx", "subx")
        more = self.sr >> 4 & 1 if extends else 0
        whole = a - b - more if minus else a + b + more
        value, top = whole & MASK[size], BITS[size] - 1
        over = ((a ^ b if minus else ~(a ^ b)) & (a ^ value)) >> top & 1
        self.flags(n=value >> top, z=value == 0 and (not extends or self.sr & Z), v=over, c=whole != value)
        if which == "cmp":
            return a
        self.flags(x=whole != value)
        return value

    def decimal(self, which, a, b):
        """ABCD and SBCD."""
        more = self.sr >> 4 & 1
        if which == "abcd":
            value = a + b + more
            value += 6 if (a & 15) + (b & 15) + more > 9 else 0
            carry = value > 0x9F
            value += 0x60 if carry else 0
        else:
            value = a - b - more
            carry = value < 0
            value -= (6 if (a & 15) - (b & 15) - more < 0 else 0) + (0x60 if carry else 0)
        self.flags(x=carry, c=carry, z=value & 0xFF == 0 and self.sr & Z)
        return value & 0xFF

    def moved(self, kind, left, value, count, size):
        """Shifted or rotated; the kinds 0 to 3 are AS, LS, ROX and RO."""
        top, x, carry, over = BITS[size] - 1, self.sr >> 4 & 1, 0, 0
        for _ in range(count):
            sign, carry = value >> top, value >> top if left else value & 1
            comes = (0 if left else sign, 0, x, carry)[kind]
            value = value << 1 & MASK[size] | comes if left else value >> 1 | comes << top
            over |= kind == 0 and value >> top != sign
            x = x if kind == 3 else carry
        self.logic(value, size)
        self.flags(x=x, v=over, c=x if kind == 2 and count == 0 else carry)
        return value

    def holds(self, condition):
        n, z, v, c = (bool(self.sr & bit) for bit in (N, Z, V, C))
        even = (True, not c and not z, not c, not z, not v, not n, n == v, n == v and not z)[condition >> 1]
        return even != bool(condition & 1)

    # Instructions

    def status(self, which, f):
        """ORI, ANDI and EORI to CCR and SR."""
        word, bits = self.fetch(), KEPT if f.w else 0x1F
        sr = self.sr | word if which == "or" else self.sr & word if which == "and" else self.sr ^ word
        self.sr = self.sr & ~bits | sr & bits

    def immediate(self, which, f):
        value = self.fetch_value(f.size)
        if which == "cmp":
            self.operate(which, self.source(f, f.size), value, f.size)
        else:
            self.change(f, f.size, lambda old: self.operate(which, old, value, f.size))

    def movep(self, _, f):
        count, at = 4 if f.l else 2, self.r[self.an(f.a)] + self.fetch_signed()
        if f.o:
            for n in range(count):
                self.write(at + 2 * n, BYTE, self.r[f.r] >> 8 * (count - 1 - n))
        else:
            value = int.from_bytes([self.read(at + 2 * n, BYTE) for n in range(count)], "big")
            self.store((DN, f.r), f.size, value)
        return 8 * f.l

    def bit(self, which, f):
        number, size = self.r[f.r] if hasattr(f, "r") else self.fetch(), LONG if f.mode == DN else BYTE
        place = self.place(f.mode, f.n, size)
        old, bit = self.load(place, size), 1 << number % BITS[size]
        self.flags(z=not old & bit)
        if which != "test":
            self.store(place, size, {"change": old ^ bit, "clear": old & ~bit, "set": old | bit}[which])

    def move(self, _, f):
        value = self.source(f, f.size)
        if f.to == AN:
            self.r[self.an(f.r)] = signed(value, f.size) & MASK[LONG]
        else:
            place = self.place(f.to, f.r, f.size)
            self.store(place, f.size, self.logic(value, f.size))
        return MOVE_TO[f.to][f.size == LONG]

    def alone(self, which, f):
        """NEGX, CLR, NEG and NOT."""
        work = {"negx": lambda old: self.operate("subx", 0, old, f.size), "clr": lambda old: self.logic(0, f.size),
                "neg": lambda old: self.operate("sub", 0, old, f.size), "not": lambda old: self.logic(~old, f.size)}
        self.change(f, f.size, work[which])

    def tst(self, _, f):
        self.logic(self.source(f, f.size), f.size)

    def from_sr(self, _, f):
        self.change(f, WORD, lambda old: self.sr)

    def to_ccr(self, _, f):
        self.sr = self.source(f, WORD) & 0x1F | self.sr & ~0x1F

    def to_sr(self, _, f):
        self.sr = self.source(f, WORD) & KEPT

    def nbcd(self, _, f):
        self.change(f, BYTE, lambda old: self.decimal("sbcd", 0, old))

    def tas(self, _, f):
        self.change(f, BYTE, lambda old: self.logic(old, BYTE) | 0x80)

    def scc(self, _, f):
        on = self.holds(f.c)
        self.change(f, BYTE, lambda old: 0xFF if on else 0)
        return 2 if on and f.mode == DN else 0

    def swap(self, _, f):
        self.r[f.r] = self.logic(self.r[f.r] >> 16 | self.r[f.r] << 16, LONG)

    def ext(self, _, f):
        self.store((DN, f.r), f.size, self.logic(signed(self.r[f.r], f.size - 1), f.size))

    def address(self, which, f):
        """LEA, PEA, JMP and JSR."""
        at = self.place(f.mode, f.n, LONG)[1]
        if which == "lea":
            self.r[self.an(f.r)] = at
        if which in ("pea", "jsr"):
            self.push(at if which == "pea" else self.pc)
        if which in ("jmp", "jsr"):
            self.pc = at
        return LISTS[which][f.mode]

    def movem(self, which, f):
        mask, base, step = self.fetch(), self.an(f.n), 1 << f.size
        order = [15 - n if f.mode == PRE else n for n in range(16) if mask >> n & 1]
        registers = [n if n < 8 else self.an(n - 8) for n in order]
        at = self.r[base] if f.mode in (PRE, POST) else self.place(f.mode, f.n, f.size)[1]
        for register, value in [(register, self.r[register]) for register in registers]:
            at -= step if f.mode == PRE else 0
            if which == "save":
                self.write(at, f.size, value)
            else:
                value = self.read(at, f.size, f.mode in (PC_DISP, PC_INDEX))
                self.r[register] = signed(value, f.size) & MASK[LONG]
            at += step if f.mode != PRE else 0
        if f.mode in (PRE, POST):
            self.r[base] = at & MASK[LONG]
        return LISTS[which][f.mode] + 2 * step * len(registers)

    def trap(self, _, f):
        raise Trap(32 + f.v, 34)

    def link(self, _, f):
        by, stack, frame = self.fetch_signed(), self.an(7), self.an(f.r)
        self.r[stack] = self.r[stack] - 4 & MASK[LONG]
        self.write(self.r[stack], LONG, self.r[frame])
        self.r[frame] = self.r[stack]
        self.r[stack] = self.r[stack] + by & MASK[LONG]

    def unlk(self, _, f):
        self.r[self.an(7)] = self.r[self.an(f.r)]
        self.r[self.an(f.r)] = self.pull(LONG)

    def move_usp(self, _, f):
        to, of = (self.an(f.r), USP) if f.d else (USP, self.an(f.r))
        self.r[to] = self.r[of]

    def nothing(self, *_):
        """NOP, and RESET, which takes its time."""

    def stop(self, *_):
        self.sr, self.waits = self.fetch() & KEPT, True

    def rte(self, *_):
        sr = self.pull(WORD)
        self.pc, self.sr = self.pull(LONG), sr & KEPT
        self.entries = self.entries[:-1]

    def rts(self, *_):
        self.pc = self.pull(LONG)

    def rtr(self, *_):
        self.sr = self.pull(WORD) & 0x1F | self.sr & ~0x1F
        self.pc = self.pull(LONG)

    def trapv(self, *_):
        if self.sr & V:
            raise Trap(7, 34)

    def chk(self, _, f):
        bound, value = signed(self.source(f, WORD), WORD), signed(self.r[f.r], WORD)
        if value < 0 or value > bound:
            self.flags(n=value < 0)
            raise Trap(6, 40 + EA[f.mode][0])

    def dbcc(self, _, f):
        base, by = self.pc, self.fetch_signed()
        if self.holds(f.c):
            return 2
        self.store((DN, f.r), WORD, self.r[f.r] - 1)
        if self.r[f.r] & 0xFFFF == 0xFFFF:
            return 4
        self.pc = base + by & MASK[LONG]
        return 0

    def branch(self, _, f):
        base, by = self.pc, signed(f.o, BYTE) if f.o else self.fetch_signed()
        if f.c != 1 and not self.holds(f.c):
            return -2 if f.o else 2
        if f.c == 1:
            self.push(self.pc)
        self.pc = base + by & MASK[LONG]
        return 8 if f.c == 1 else 0

    def moveq(self, _, f):
        self.r[f.r] = self.logic(signed(f.o, BYTE), LONG)

    def quick(self, which, f):
        value = f.q or 8
        if f.mode != AN:
            return self.change(f, f.size, lambda old: self.operate(which, old, value, f.size))
        self.r[self.an(f.n)] = self.r[self.an(f.n)] + (value if which == "add" else -value) & MASK[LONG]
        return -4 if f.size == LONG else 0

    def to_dn(self, which, f):
        value = self.source(f, f.size)
        self.store((DN, f.r), f.size, self.operate(which, self.r[f.r] & MASK[f.size], value, f.size))
        return 2 if f.size == LONG and which != "cmp" and f.mode in (DN, AN, IMMEDIATE) else 0

    def from_dn(self, which, f):
        self.change(f, f.size, lambda old: self.operate(which, old, self.r[f.r] & MASK[f.size], f.size))

    def to_an(self, which, f):
        value, register = signed(self.source(f, f.size), f.size) & MASK[LONG], self.an(f.r)
        if which == "cmp":
            self.operate("cmp", self.r[register], value, LONG)
            return 0
        self.r[register] = self.r[register] + (value if which == "add" else -value) & MASK[LONG]
        return -2 if f.l and f.mode not in (DN, AN, IMMEDIATE) else 0

    def cmpm(self, _, f):
        value = self.load(self.place(POST, f.a, f.size), f.size)
        self.operate("cmp", self.load(self.place(POST, f.r, f.size), f.size), value, f.size)

    def both(self, f, size, work):
        """Of ADDX and its kin: reads two registers or two places in memory, and writes what comes of them."""
        mode = PRE if f.m else DN
        value, place = self.load(self.place(mode, f.a, size), size), self.place(mode, f.r, size)
        self.store(place, size, work(self.load(place, size), value))

    def pair(self, which, f):
        self.both(f, f.size, lambda old, value: self.operate(which, old, value, f.size))
        return (22 if f.size == LONG else 14) * f.m

    def pair_decimal(self, which, f):
        self.both(f, BYTE, lambda old, value: self.decimal(which, old, value))
        return 12 * f.m

    def exg(self, which, f):
        left, right = (n if kind == "d" else self.an(n) for kind, n in zip(which, (f.r, f.a)))
        self.r[left], self.r[right] = self.r[right], self.r[left]

    def multiply(self, which, f):
        value, other = self.source(f, WORD), self.r[f.r] & 0xFFFF
        n = sum(value >> bit & 1 for bit in range(16))
        if which == "s":
            n = sum((value << 1) >> bit & 3 in (1, 2) for bit in range(16))
            value, other = signed(value, WORD), signed(other, WORD)
        self.r[f.r] = self.logic(value * other, LONG)
        return 2 * n

    def divide(self, which, f):
        value, whole = self.source(f, WORD), self.r[f.r]
        if value == 0:
            self.flags(c=0)
            raise Trap(5, 38 + EA[f.mode][0])
        if which == "s":
            value, whole = signed(value, WORD), signed(whole, LONG)
        quotient = abs(whole) // abs(value) * (1 if (whole < 0) == (value < 0) else -1)
        if quotient in (range(-0x8000, 0x8000) if which == "s" else range(0x10000)):
            self.logic(quotient, WORD)
            self.r[f.r] = (whole - quotient * value & 0xFFFF) << 16 | quotient & 0xFFFF
        else:
            self.flags(v=1, c=0)

    def shift(self, _, f):
        count = self.r[f.c] % 64 if f.i else f.c or 8
        self.store((DN, f.r), f.size, self.moved(f.t, f.d, self.r[f.r] & MASK[f.size], count, f.size))
        return 2 * count

    def shift_memory(self, _, f):
        self.change(f, WORD, lambda old: self.moved(f.t, f.d, old, 1, WORD))
