// The slots of a frame: of each clock who had the bus, and what was read or written then.

const BLITTER_RESTS = 2, COPPER_READS = 3, BLITTER_READS = 4, BLITTER_WRITES = 5, PROCESSOR_READS = 6;
const FIRST_PLANE = 33, LAST_PLANE = 38, FIRST_SPRITE = 40, LAST_SPRITE = 71;
const FREE = 0, PROCESSOR_SLOT = 8;
const MOST_UNPACKED = 24, MEMORY_WORDS = 1 << 19;
// the names and colours of the owners, in the order of their numbers
const OWNERS = [
  { name: "Free", colour: "--slot-free" },
  { name: "Refresh", colour: "--slot-refresh" },
  { name: "Disk", colour: "--slot-disk" },
  { name: "Audio", colour: "--slot-audio" },
  { name: "Bitplanes", colour: "--slot-planes" },
  { name: "Sprites", colour: "--slot-sprites" },
  { name: "Copper", colour: "--copper" },
  { name: "Blitter", colour: "--slot-blitter" },
  { name: "Processor", colour: "--processor" },
];
// of each code its words, its owner, and whether memory or a register is accessed: the page's data has them
const CODES = [];
const OWNER_OF = new Uint8Array(256);

/** Takes the table of codes of a page's data. */
function takeCodes(table) {
  for (const [code, [says, owner, space]] of Object.entries(table)) {
    CODES[code] = { says, space };
    OWNER_OF[code] = owner;
  }
}

/** Denise's register that a fetched word is written to, by the code of its slot; 0 for other codes. */
function fetchedRegister(code) {
  if (code >= FIRST_PLANE && code <= LAST_PLANE) return 0x110 + 2 * (code - FIRST_PLANE);
  if (code < FIRST_SPRITE || code > LAST_SPRITE) return 0;
  return 0x140 + 8 * (code % 8) + 2 * ((code - FIRST_SPRITE) >> 3);
}

/** The clocks of fields: where a line begins, and the beam at a clock of the field. */
class Field {
  constructor(system) {
    this.clocks = system.clocks;
    this.evenClocks = system.evenClocks;
  }

  lineStart(line) {
    return line * this.evenClocks + (line >> 1) * (this.clocks - this.evenClocks);
  }

  indexOf(line, clock) {
    return this.lineStart(line) + clock;
  }

  beam(index) {
    let line = Math.floor(index / this.evenClocks);
    while (this.lineStart(line) > index) line--;
    return { line, clock: index - this.lineStart(line) };
  }
}

/** The slots of one frame, clock by clock: codes, addresses (or offsets of registers) and words, -1 where there is none. */
class FrameSlots {
  /** `log` is the page's data of it; `before` has the last fetches of planes and sprites before the frame, and `bytes` the records byte by byte,
   *  each of all clocks. */
  constructor(field, log, before, bytes) {
    const count = bytes.length / 6, column = (at) => bytes.subarray(at * count, (at + 1) * count);
    const [codes, high, middle, low, wordHigh, wordLow] = [0, 1, 2, 3, 4, 5].map(column);
    Object.assign(this, { field, log, before, count, codes });
    this.addresses = new Int32Array(count).fill(-1);
    this.words = new Int32Array(count).fill(-1);
    for (let at = 0; at < count; at++) {
      if (!CODES[codes[at]].space) continue;
      this.addresses[at] = (high[at] << 16) | (middle[at] << 8) | low[at];
      this.words[at] = (wordHigh[at] << 8) | wordLow[at];
    }
    this.lines = field.beam(count - 1).line + 1;
  }

  /** Whether the beam came to a clock of a line in this frame. */
  has(line, clock) {
    return line < this.lines && clock < this.field.lineStart(line + 1) - this.field.lineStart(line);
  }

  /** The indexes of the clocks at which a word of a plane or a sprite is fetched. */
  get fetches() {
    if (!this.fetched) {
      const found = [];
      for (let at = 0; at < this.count; at++) if (this.codes[at] >= FIRST_PLANE) found.push(at);
      this.fetched = Int32Array.from(found);
    }
    return this.fetched;
  }
}

/** The log of the slots of a page's frames: a frame is unpacked when it is wanted, and the last ones are kept. */
class Slots {
  constructor(data, system, whenReady) {
    takeCodes(data.codes);
    this.data = data;
    this.field = new Field(system);
    this.whenReady = whenReady;
    this.unpacked = new Map();
    this.coming = new Set();
    // of each word of memory the number of the function that it is in; -1 for none
    this.functions = new Int32Array(MEMORY_WORDS).fill(-1);
    data.symbols?.addresses.forEach((address, at) => {
      this.functions.fill(at, Math.floor(address / 2), Math.ceil(data.symbols.ends[at] / 2));
    });
  }

  has(frame) {
    return frame in this.data.frames;
  }

  /** The numbers of the frames that there are, in order. */
  get numbers() {
    return Object.keys(this.data.frames).map(Number);
  }

  /** How many clocks of a frame each owner has. */
  shares(frame) {
    return this.data.frames[frame].shares;
  }

  /** The clocks of a frame. */
  clocks(frame) {
    return this.shares(frame).reduce((sum, one) => sum + one, 0);
  }

  /** The slots of a frame; null where the log has none, and while they are unpacked: whenReady is called with its number after that. */
  frame(frame) {
    const slots = this.unpacked.get(frame);
    if (!slots && this.has(frame)) this.unpack(frame);
    return slots || null;
  }

  /** The slots of a frame that there is. */
  async read(frame) {
    const { records, before } = this.data.frames[frame];
    return this.unpacked.get(frame) ?? new FrameSlots(this.field, this.data, before, await inflate(bytesOf(records)));
  }

  async unpack(frame) {
    if (this.coming.has(frame)) return;
    this.coming.add(frame);
    const slots = await this.read(frame);
    this.coming.delete(frame);
    this.unpacked.set(frame, slots);
    if (this.unpacked.size > MOST_UNPACKED) this.unpacked.delete(this.unpacked.keys().next().value);
    this.whenReady(frame);
  }

  /** The function that an address of the program is in; empty where it is in none, or no names are there. */
  functionAt(address) {
    return this.data.symbols?.names[this.functions[address >> 1]] ?? "";
  }
}

/** What the slot of a clock was for, in words: who and what, the address and the word. */
function slotSentence(slots, index, trace, functionAt) {
  const code = slots.codes[index], address = slots.addresses[index], word = hex(slots.words[index], 4);
  const { says, space } = CODES[code];
  if (!space) return says;
  if (space === "register") return `${says} ${trace.name(address)} ${word}`;
  const name = OWNER_OF[code] === PROCESSOR_SLOT ? functionAt(address) : "";
  return `${says} ${word} at ${hex(address, 5)}${name ? " in " + name : ""}`;
}
