// The trace as columns of numbers, and the questions that a picture asks of it.

const COPPER = 0, PROCESSOR = 1, SCRIPT = 2;
const SOURCE_LETTERS = "CMS";
const SOURCE_NAMES = ["Copper", "processor", "script"];
const FIRST_COLOUR = 0x180, LAST_COLOUR = 0x1be;
const WRITE = 0, READ = 1, INTERRUPT = 2;

/** What a line counts as in the filter and in the picture: a write by its source, any read, an interrupt. */
const GROUPS = [
  { name: "Copper", colour: "--copper", sign: "" },
  { name: "Processor", colour: "--processor", sign: "" },
  { name: "Script", colour: "--script", sign: "" },
  { name: "Reads", colour: "--read", sign: "hollow" },
  { name: "Interrupts", colour: "--interrupt", sign: "pointed" },
];

class Trace {
  /**
   * `earlier` has the last write to each register before the page's frames, as lines "NUMBER LINE"; `text` the lines of
   * its frames, the first of which is line `firstNumber` of the file.
   */
  constructor(earlier, text, firstNumber, registers) {
    const before = earlier.trim() ? earlier.trim().split("\n") : [];
    const lines = text.trim() ? text.trim().split("\n") : [];
    this.registers = registers;
    this.earlier = before.length;
    this.count = before.length + lines.length;
    this.number = new Int32Array(this.count);
    this.frame = new Int16Array(this.count);
    this.line = new Int16Array(this.count);
    this.clock = new Int16Array(this.count);
    this.kind = new Uint8Array(this.count);
    this.register = new Int16Array(this.count);
    this.word = new Uint16Array(this.count);
    this.source = new Uint8Array(this.count);
    before.forEach((line, at) => {
      const space = line.indexOf(" ");
      this.take(at, Number(line.slice(0, space)), line.slice(space + 1).split(" "));
    });
    lines.forEach((line, at) => this.take(this.earlier + at, firstNumber + at, line.split(" ")));
    this.indexWrites();
  }

  take(at, number, parts) {
    this.number[at] = number;
    this.frame[at] = Number(parts[0]);
    this.line[at] = Number(parts[1]);
    this.clock[at] = Number(parts[2]);
    if (parts[3] === "I") {
      this.kind[at] = INTERRUPT;
      this.word[at] = Number(parts[4]);
      this.register[at] = -1;
      this.source[at] = PROCESSOR;
    } else {
      this.kind[at] = parts[3] === "W" ? WRITE : READ;
      this.register[at] = parseInt(parts[4], 16);
      this.word[at] = parseInt(parts[5], 16);
      this.source[at] = SOURCE_LETTERS.indexOf(parts[6]);
    }
  }

  /** For each register that was written, the indexes of its writes in order. */
  indexWrites() {
    this.writes = new Map();
    for (let at = 0; at < this.count; at++) {
      if (this.kind[at] !== WRITE) continue;
      const list = this.writes.get(this.register[at]);
      if (list) list.push(at);
      else this.writes.set(this.register[at], [at]);
    }
  }

  group(at) {
    return this.kind[at] === WRITE ? this.source[at] : this.kind[at] + 2;
  }

  /** The order of the line's place and another, below 0, 0 or above. */
  order(at, frame, line, clock) {
    return this.frame[at] - frame || this.line[at] - line || this.clock[at] - clock;
  }

  /** The index of the first line at or after a place. */
  indexOf(frame, line, clock) {
    let low = 0, high = this.count;
    while (low < high) {
      const middle = (low + high) >> 1;
      if (this.order(middle, frame, line, clock) < 0) low = middle + 1;
      else high = middle;
    }
    return low;
  }

  /** How many lines come before the pixels of a clock: those of earlier clocks, and the script's of this one. */
  countBefore(frame, line, clock) {
    let at = this.indexOf(frame, line, clock);
    while (at < this.count && this.order(at, frame, line, clock) === 0 && this.source[at] === SCRIPT) at++;
    return at;
  }

  /** The index of the last write to a register that the pixels of a clock come after; -1 where there is none. */
  lastWrite(register, frame, line, clock) {
    return this.writes.has(register) ? this.lastWriteBefore(register, this.countBefore(frame, line, clock)) : -1;
  }

  /** The index of the last write to a register among the lines before `end`; -1 where there is none. */
  lastWriteBefore(register, end) {
    const list = this.writes.get(register) ?? [];
    let low = 0, high = list.length;
    while (low < high) {
      const middle = (low + high) >> 1;
      if (list[middle] < end) low = middle + 1;
      else high = middle;
    }
    return low ? list[low - 1] : -1;
  }

  /**
   * The colour registers that hold a colour at a clock. Those that were never written hold 0; of these COLOR00 alone is
   * given.
   */
  holding(colour, frame, line, clock) {
    const found = [];
    for (let register = FIRST_COLOUR; register <= LAST_COLOUR; register += 2) {
      const at = this.lastWrite(register, frame, line, clock);
      if (at < 0 ? colour === 0 && register === FIRST_COLOUR : (this.word[at] & 0xfff) === colour) found.push(register);
    }
    return found;
  }

  name(register) {
    const row = this.registers[hex(register, 3)];
    return row ? row[0] : hex(register, 3);
  }

  /** The line as the trace file has it. */
  text(at) {
    const place = `${this.frame[at]} ${this.line[at]} ${this.clock[at]}`;
    if (this.kind[at] === INTERRUPT) return `${place} I ${this.word[at]}`;
    const kind = this.kind[at] === WRITE ? "W" : "R";
    return `${place} ${kind} ${hex(this.register[at], 3)} ${hex(this.word[at], 4)} ${SOURCE_LETTERS[this.source[at]]}`;
  }

  /** What the word of a line means; `short` for a narrow column. */
  meaning(at, short) {
    if (this.kind[at] === INTERRUPT) return `level ${this.word[at]} is taken`;
    const row = this.registers[hex(this.register[at], 3)];
    if (!row) return "no register: nothing changes";
    return meaningOf(row[2], row[3], this.word[at], short) || row[1];
  }

  /** What a register is for; empty for an offset without one. */
  purposeOf(register) {
    return this.registers[hex(register, 3)]?.[1] ?? "";
  }

  /** What happened at a line, and where. */
  sentence(at) {
    const place = `at line ${this.line[at]}, clock ${this.clock[at]}`;
    if (this.kind[at] === INTERRUPT) return `the processor takes an interrupt of level ${this.word[at]} ${place}`;
    const act = this.kind[at] === WRITE ? "writes" : "reads";
    return `${SOURCE_NAMES[this.source[at]]} ${act} ${this.name(this.register[at])} ${hex(this.word[at], 4)} ${place}`;
  }
}

function isColour(register) {
  return register >= FIRST_COLOUR && register <= LAST_COLOUR;
}

/** The names of the one-bit fields that are set, and the other fields with their numbers. */
function fieldsOf(fields, word) {
  const said = [];
  for (const [high, low, name] of fields) {
    const value = (word >> low) & ((1 << (high - low + 1)) - 1);
    if (high !== low) said.push(`${name} ${name === "LF" ? hex(value, 2) : value}`);
    else if (value) said.push(name);
  }
  return said.join(", ");
}

/** What a word sets or clears of a register's bits: their names, or all, or the names of those that it leaves where these are fewer. */
function bitsOf(fields, word) {
  const isSet = ([high, low]) => (word >> low) & ((1 << (high - low + 1)) - 1), left = fields.filter((field) => !isSet(field));
  if (left.length >= fields.length / 2) return fieldsOf(fields, word) || "nothing";
  return left.length ? `all but ${left.map(([, , name]) => name).join(", ")}` : "all";
}

/** What a word means by the form of its register; empty where the form says nothing of it. */
function meaningOf(form, fields, word, short) {
  if (form === "colour") {
    const [red, green, blue] = [(word >> 8) & 15, (word >> 4) & 15, word & 15];
    return short ? `r ${red}  g ${green}  b ${blue}` : `red ${red}, green ${green}, blue ${blue}`;
  }
  if (form === "set") return `${word & 0x8000 ? "sets" : "clears"} ${bitsOf(fields, word)}`;
  if (form === "size") return `${(word >> 6) || 1024} lines of ${(word & 63) || 64} words`;
  if (form === "start") return `from line ${word >> 8}, position ${word & 255}`;
  if (form === "stop") return `to line ${(word >> 8) + (word & 0x8000 ? 0 : 256)}, position ${(word & 255) + 256}`;
  if (form === "fields") return fieldsOf(fields, word) || "all 0";
  return "";
}
