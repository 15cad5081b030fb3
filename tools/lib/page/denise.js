// What Denise shows, worked out from trace and slots for one line of a frame at a time, and why.

const DIWSTRT = 0x8e, DIWSTOP = 0x90, BPLCON0 = 0x100, BPLCON1 = 0x102, BPLCON2 = 0x104;
const BPL1DAT = 0x110, BPL6DAT = 0x11a, SPR0POS = 0x140, SPR7DATB = 0x17e;
const POS = 0, CTL = 2, SPRITE_DATA = 4, SPRITE_DATB = 6;
const SPRITE_RUN = 16;
// the bits of DMACON that let planes and sprites fetch
const BPLEN = 0x100, SPREN = 0x20;

/** Denise's registers on which a picture depends. */
function pictureRegisters() {
  const found = [DIWSTRT, DIWSTOP, BPLCON0, BPLCON1, BPLCON2];
  for (let register = BPL1DAT; register <= BPL6DAT; register += 2) found.push(register);
  for (let register = SPR0POS; register <= LAST_COLOUR; register += 2) found.push(register);
  return found;
}

const PICTURE_REGISTERS = pictureRegisters();
const IS_PICTURE = new Set(PICTURE_REGISTERS);

/** Whether one write or fetch came after another; null is none. At one clock a fetch comes after what the trace has. */
function isLater(one, other) {
  if (!one || !other) return Boolean(one);
  const order = one.frame - other.frame || one.line - other.line || one.clock - other.clock;
  return (order || (one.at < 0) - (other.at < 0) || one.at - other.at) > 0;
}

/** Denise at some clock of a frame. Each register has, beside its word, where that came from. */
class Denise {
  constructor(trace, slots, frame) {
    Object.assign(this, { trace, slots, frame });
    this.words = new Uint16Array(256);
    this.causes = new Array(256).fill(null);
    this.tracedTo = trace.indexOf(frame, 0, 0);
    this.fetchedTo = 0;
    this.takeWords();
    this.takeArmed();
    this.beginLine();
  }

  /** The words as the frame begins: of each register the later of the trace's last write and the last fetch before it. */
  takeWords() {
    const { trace, slots } = this;
    for (const register of PICTURE_REGISTERS) {
      const at = trace.lastWriteBefore(register, this.tracedTo);
      if (at >= 0) this.set(register, trace.word[at], this.traced(at));
    }
    for (const [code, [frame, line, clock, address, word]] of Object.entries(slots.before)) {
      const register = fetchedRegister(Number(code)), cause = { frame, line, clock, address, at: -1 };
      if (!isLater(this.causes[register >> 1], cause)) this.set(register, word, cause);
    }
  }

  /** Which sprites are armed as the frame begins; and, of a log that begins later than the run, what a fetch before it may have written. */
  takeArmed() {
    const { first, dmaBefore } = this.slots.log, cause = (register) => this.causes[register >> 1];
    const isUnknown = (register) => !(cause(register)?.at < 0) && !(cause(register)?.frame >= first);
    const fetched = PICTURE_REGISTERS.filter((one) => (one <= BPL6DAT ? one >= BPL1DAT && dmaBefore & BPLEN : one <= SPR7DATB && dmaBefore & SPREN));
    this.unknown = new Set(fetched.filter(isUnknown));
    this.armed = this.armedUnknown = 0;
    for (let sprite = 0; sprite < 8; sprite++) {
      const [control, data] = [CTL, SPRITE_DATA].map((part) => SPR0POS + 8 * sprite + part);
      if (isLater(cause(data), cause(control))) this.armed |= 1 << sprite;
      if (this.unknown.has(control) && this.unknown.has(data)) this.armedUnknown |= 1 << sprite;
    }
  }

  traced(at) {
    const trace = this.trace;
    return { frame: trace.frame[at], line: trace.line[at], clock: trace.clock[at], address: -1, at };
  }

  set(register, word, cause) {
    this.words[register >> 1] = isColour(register) ? word & 0xfff : word;
    this.causes[register >> 1] = cause;
  }

  word(register) {
    return this.words[register >> 1];
  }

  beginLine() {
    this.loads = [];
    this.runs = new Array(8).fill(null);
    this.held = this.word(FIRST_COLOUR);
    // the positions at which red, green and blue of the held colour were set; -1 as the line began
    this.heldFrom = { red: -1, green: -1, blue: -1 };
    this.doubtful = new Set();
  }

  /** Makes the writes up to a line of the trace and a clock of the field, in their order. */
  advance(traceEnd, clockEnd) {
    const { trace, slots } = this, fetches = slots.fetches, field = slots.field;
    for (;;) {
      const traced = this.tracedTo < traceEnd ? field.indexOf(trace.line[this.tracedTo], trace.clock[this.tracedTo]) : Infinity;
      const fetched = this.fetchedTo < fetches.length && fetches[this.fetchedTo] < clockEnd ? fetches[this.fetchedTo] : Infinity;
      if (traced === Infinity && fetched === Infinity) return;
      if (traced <= fetched) this.takeTraced(this.tracedTo++);
      else this.takeFetched(fetches[this.fetchedTo++]);
    }
  }

  takeTraced(at) {
    const { trace } = this;
    if (trace.kind[at] === WRITE && IS_PICTURE.has(trace.register[at])) {
      this.write(trace.register[at], trace.word[at], this.traced(at));
    }
  }

  takeFetched(index) {
    const { slots, frame } = this, beam = slots.field.beam(index);
    this.write(fetchedRegister(slots.codes[index]), slots.words[index], { frame, ...beam, address: slots.addresses[index], at: -1 });
  }

  write(register, word, cause) {
    this.set(register, word, cause);
    this.unknown.delete(register);
    if (register === BPL1DAT) this.load(cause.clock);
    if (register < SPR0POS || register > SPR7DATB) return;
    const bit = 1 << ((register - SPR0POS) >> 3), part = register & 7;
    if (part === CTL) this.armed &= ~bit;
    if (part === SPRITE_DATA) this.armed |= bit;
    if (part === CTL || part === SPRITE_DATA) this.armedUnknown &= ~bit;
  }

  load(clock) {
    const hires = this.word(BPLCON0) >> 15, scroll = this.word(BPLCON1), most = hires ? 7 : 15;
    const start = 4 * clock + 6, first = BPL1DAT >> 1;
    this.loads.push({
      odd: start + 2 * (scroll & most),
      even: start + 2 * ((scroll >> 4) & most),
      words: this.words.slice(first, first + 6),
      causes: this.causes.slice(first, first + 6),
      unknown: [0, 1, 2, 3, 4, 5].map((plane) => this.unknown.has(BPL1DAT + 2 * plane)),
      hires,
    });
  }

  // planes

  get planes() {
    const con0 = this.word(BPLCON0);
    return Math.min((con0 >> 12) & 7, con0 & 0x8000 ? 4 : 6);
  }

  /** What a plane shows at a position: its load, the bit of the word, and its value. */
  plane(plane, position) {
    const start = (load) => (plane % 2 ? load.odd : load.even);
    const load = this.loads.findLast((one) => start(one) <= position) ?? null;
    if (!load) return { plane, load, place: -1, bit: 0 };
    const passed = position - start(load), place = 15 - (load.hires ? passed : passed >> 1);
    return { plane, load, place, bit: place < 0 ? 0 : (load.words[plane - 1] >> place) & 1 };
  }

  shownPlanes(position) {
    const shown = [];
    for (let plane = 1; plane <= this.planes; plane++) shown.push(this.plane(plane, position));
    return shown;
  }

  // sprites

  /** The words of each armed sprite whose position is x begin to run. */
  startSprites(x) {
    for (let sprite = 0; sprite < 8; sprite++) {
      const first = (SPR0POS >> 1) + 4 * sprite, words = this.words;
      if (!((this.armed >> sprite) & 1) || 2 * (words[first] & 255) + (words[first + 1] & 1) !== x) continue;
      this.runs[sprite] = { x, data: words[first + 2], datb: words[first + 3], causes: this.causes.slice(first, first + 4) };
    }
  }

  spriteValue(sprite, x) {
    const run = this.runs[sprite];
    if (!run || x - run.x >= SPRITE_RUN) return 0;
    const bit = 15 - (x - run.x);
    return ((run.data >> bit) & 1) + 2 * ((run.datb >> bit) & 1);
  }

  isAttached(pair) {
    return Boolean(this.word(SPR0POS + 16 * pair + 8 + CTL) & 0x80);
  }

  /** The pixel of the pair in front: pair, number of its colour, value and whether it is attached; null where no sprite shows. */
  frontSprite(x) {
    for (let pair = 0; pair < 4; pair++) {
      const even = this.spriteValue(2 * pair, x), odd = this.spriteValue(2 * pair + 1, x);
      const attached = this.isAttached(pair), value = attached ? 4 * odd + even : even || odd;
      if (value) return { pair, attached, value, number: (attached ? 16 : 16 + 4 * pair) + value };
    }
    return null;
  }

  /** Gathers the sprites that may show on this line what they have read before the log began. */
  gatherDoubtful() {
    for (let sprite = 0; sprite < 8; sprite++) {
      const parts = [POS, CTL, SPRITE_DATA, SPRITE_DATB], armed = (this.armed >> sprite) & 1;
      const unknown = parts.some((part) => this.unknown.has(SPR0POS + 8 * sprite + part));
      if ((this.armedUnknown >> sprite) & 1 || (armed && unknown)) this.doubtful.add(sprite);
    }
  }

  /** What is not known of a pixel, as the log begins later: planes whose words were read before, and sprites. */
  unknownOf(pixel) {
    const planes = (pixel.planes ?? []).filter(({ plane, load }) => load?.unknown[plane - 1]);
    return { planes: planes.map(({ plane }) => plane), sprites: pixel.inside ? [...this.doubtful] : [] };
  }

  // colours

  get window() {
    const start = this.word(DIWSTRT), stop = this.word(DIWSTOP);
    const lines = [start >> 8, (stop >> 8) + (stop & 0x8000 ? 0 : 256)];
    return { lines, columns: [start & 255, (stop & 255) + 256] };
  }

  isInside(line, x) {
    const { lines, columns } = this.window;
    return lines[0] <= line && line < lines[1] && columns[0] <= x && x < columns[1];
  }

  colour(number) {
    return this.words[(FIRST_COLOUR >> 1) + number];
  }

  get mode() {
    const con0 = this.word(BPLCON0);
    if (con0 & 0x400) return "two playfields";
    if (con0 & 0x8000) return "plain";
    if (con0 & 0x800) return "hold and modify";
    return this.planes === 6 ? "half-brite" : "plain";
  }

  /** The playfields' colour by the bits of the planes: the number of its register (-1 where it is made of the held colour), the
   *  value and the code of priority that sprites meet. */
  playfield(bits) {
    const mode = this.mode, con2 = this.word(BPLCON2), code = Math.min((con2 >> 3) & 7, 4);
    const single = { mode, value: bits, code };
    if (mode === "two playfields") return this.playfields(bits, con2);
    if (mode === "hold and modify") return { ...single, ...this.heldAndModified(bits) };
    if (mode === "plain") return { ...single, number: bits, colour: this.colour(bits) };
    const named = this.colour(bits & 31);
    return { ...single, number: bits & 31, halved: bits > 31, colour: bits > 31 ? (named >> 1) & 0x777 : named };
  }

  playfields(bits, con2) {
    const one = (bits & 1) | ((bits >> 1) & 2) | ((bits >> 2) & 4);
    const two = ((bits >> 1) & 1) | ((bits >> 2) & 2) | ((bits >> 3) & 4);
    const chosen = (con2 & 0x40 ? two !== 0 : one === 0) ? 2 : 1;
    const number = chosen === 1 ? one : two && 8 + two;
    const value = chosen === 1 ? one : two, code = Math.min((chosen === 1 ? con2 : con2 >> 3) & 7, 4);
    return { mode: "two playfields", value, code, one, two, chosen, number, colour: this.colour(number) };
  }

  heldAndModified(bits) {
    const low = bits & 15, control = (bits >> 4) & 3;
    if (!control) return { number: low, colour: this.colour(low) };
    const shift = [0, 0, 8, 4][control], modified = ["", "blue", "red", "green"][control];
    return { number: -1, modified, before: this.held, beforeFrom: this.heldFrom, colour: (this.held & ~(15 << shift)) | (low << shift) };
  }

  /** Holds a colour, of which a position has set one component, or all. */
  hold(colour, position, component) {
    this.held = colour;
    const set = component ? { [component]: position } : { red: position, green: position, blue: position };
    this.heldFrom = { ...this.heldFrom, ...set };
  }

  /** The pixel at a position of a line, and why it is so. The next is that of the position behind it. */
  pixel(line, position) {
    const x = position >> 1;
    if (this.unknown.size || this.armedUnknown) this.gatherDoubtful();
    if (position % 2 === 0) this.startSprites(x);
    if (!this.isInside(line, x)) {
      this.hold(this.colour(0), position);
      return { inside: false, number: 0, colour: this.held };
    }
    const planes = this.shownPlanes(position);
    const bits = planes.reduce((sum, one) => sum | (one.bit << (one.plane - 1)), 0);
    const field = this.playfield(bits), front = this.frontSprite(x);
    this.hold(field.colour, position, field.modified);
    const hidden = Boolean(front && field.value && field.code <= front.pair);
    const number = front && !hidden ? front.number : field.number;
    const colour = front && !hidden ? this.colour(front.number) : field.colour;
    return { inside: true, planes, bits, field, front, hidden, number, colour };
  }
}

/** The pixels of a line up to a position, the last with its reasons and Denise as she then is. */
class DeniseLine {
  constructor(trace, slots, frame, line) {
    Object.assign(this, { trace, slots, frame, line });
    this.denise = new Denise(trace, slots, frame);
    this.denise.advance(trace.indexOf(frame, line, 0), slots.field.indexOf(line, 0));
    this.denise.beginLine();
    this.next = 0;
  }

  /** The pixel at a position, none before which was asked for after it. */
  pixel(position) {
    let found = null;
    for (; this.next <= position; this.next++) {
      const clock = this.next >> 2;
      if (this.next % 4 === 0) {
        this.denise.advance(this.trace.countBefore(this.frame, this.line, clock), this.slots.field.indexOf(this.line, clock));
      }
      found = this.denise.pixel(this.line, this.next);
    }
    return found;
  }
}
