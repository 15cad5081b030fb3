// The blits of a run, by slots and trace: each from the write that starts it to its last slot.

const BLTCON0 = 0x40, BLTCON1 = 0x42, BLTSIZE = 0x58, LAST_OF_BLITTER = 0x74;
const CHANNELS = [..."ABCD"];

class Blit {
  /** `start` and `end` have a frame and the index of a clock of its field; `at` is the index in the trace of the write that starts the blit, or -1
   *  where it began before the log, and `words` are the blitter's registers then. */
  constructor(start, at, words) {
    Object.assign(this, { start, at, words, end: null, clocks: 0, reads: 0, writes: 0, rests: 0, addresses: {} });
    const size = this.word(BLTSIZE);
    this.channels = CHANNELS.filter((_, channel) => this.word(BLTCON0) & (0x800 >> channel)).join("");
    this.line = Boolean(this.word(BLTCON1) & 1);
    this.height = size >> 6 || 1024;
    this.width = size & 63 || 64;
    // the slots that it asks for, of a word or a point, and in all; none where they are not known
    this.pattern = at < 0 ? "" : this.asksOfWord();
    this.asks = this.pattern.length * this.height * (this.line ? 1 : this.width);
  }

  word(register) {
    return this.words.get(register) ?? 0;
  }

  get slots() {
    return this.reads + this.writes + this.rests;
  }

  /** The asks of a word, or of a point of a line, by their channels: a dash is a rest, or a channel that is not used. */
  asksOfWord() {
    const used = (name) => this.channels.includes(name), orDash = (name) => (used(name) ? name : "-");
    if (this.line) return `-${orDash("C")}-${orDash("D")}`;
    const others = [..."BCD"].filter(used).join("");
    // a word has two asks at least, and with B two besides that of A
    return (orDash("A") + others).padEnd(used("B") ? 3 : 2, "-");
  }

  /** Takes a slot; whether it is the last one. */
  take(frame, index, code, address) {
    if (address >= 0 && this.asks) {
      const channel = this.pattern[this.slots % this.pattern.length];
      (this.addresses[channel] ??= [address, address])[1] = address;
    }
    if (code === BLITTER_READS) this.reads++;
    else if (code === BLITTER_WRITES) this.writes++;
    else this.rests++;
    this.end = { frame, index };
    return this.slots === this.asks;
  }
}

/** Gathers the blits of a run frame by frame. Of one that was under way as the first frame begins nothing is known. */
class BlitLog {
  constructor(field, trace, first) {
    // the clocks of the frames before, and up to the start of the blit that runs
    Object.assign(this, { field, trace, all: [], running: null, passed: 0, begun: 0, words: new Map() });
    const before = trace.indexOf(first, 0, 0);
    for (let register = BLTCON0; register <= LAST_OF_BLITTER; register += 2) {
      const at = trace.lastWriteBefore(register, before);
      if (at >= 0) this.words.set(register, trace.word[at]);
    }
  }

  /** Goes on by the next frame. A write comes before the slot of its clock. */
  take(frame, slots) {
    const { trace, field } = this, end = trace.indexOf(frame + 1, 0, 0);
    let next = trace.indexOf(frame, 0, 0);
    for (let index = 0; index < slots.count; index++) {
      for (; next < end && field.indexOf(trace.line[next], trace.clock[next]) <= index; next++) this.write(frame, index, next);
      const code = slots.codes[index];
      if (code === BLITTER_READS || code === BLITTER_WRITES || code === BLITTER_RESTS) this.takeSlot(frame, index, code, slots.addresses[index]);
    }
    this.passed += slots.count;
  }

  /** A line of the trace: a write to one of the blitter's registers changes nothing while a blit runs whose start is known. */
  write(frame, index, at) {
    const register = this.trace.register[at];
    if (this.trace.kind[at] !== WRITE || register < BLTCON0 || register > LAST_OF_BLITTER || this.running?.asks) return;
    this.words.set(register, this.trace.word[at]);
    if (register === BLTSIZE) this.begin(new Blit({ frame, index }, at, new Map(this.words)));
  }

  begin(blit) {
    this.running = blit;
    this.begun = this.passed + blit.start.index;
    this.all.push(blit);
  }

  takeSlot(frame, index, code, address) {
    if (!this.running) this.begin(new Blit({ frame, index }, -1, new Map()));
    this.running.clocks = this.passed + index - this.begun + 1;
    if (this.running.take(frame, index, code, address)) this.running = null;
  }
}
