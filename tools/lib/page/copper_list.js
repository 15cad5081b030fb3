// The instructions that the Copper ran in a frame, each with the clock at which it did.

const COPPER_JUMPS = [0x88, 0x8a];

/** The Copper's instructions of a frame in order: the clocks of their two reads, their address and words. What a jump drops has no second word. */
function copperInstructions(slots, trace, frame) {
  const found = [], jumps = jumpsOf(slots.field, trace, frame);
  let first = null, jump = 0;
  for (let at = 0; at < slots.count; at++) {
    if (slots.codes[at] !== COPPER_READS) continue;
    while (jump < jumps.length && jumps[jump].before <= at) {
      if (first) found.push(first);
      first = null;
      jump++;
    }
    const read = { at, address: slots.addresses[at], first: slots.words[at], second: -1, end: at };
    if (!first) first = read;
    else {
      found.push({ ...first, second: slots.words[at], end: at });
      first = null;
    }
  }
  if (first) found.push(first);
  return found;
}

/** The writes of a frame that start the Copper anew, each with the first clock at which it reads from there. */
function jumpsOf(field, trace, frame) {
  const found = [], end = trace.indexOf(frame + 1, 0, 0);
  for (let at = trace.indexOf(frame, 0, 0); at < end; at++) {
    if (trace.kind[at] !== WRITE || !COPPER_JUMPS.includes(trace.register[at])) continue;
    const index = field.indexOf(trace.line[at], trace.clock[at]);
    found.push({ before: trace.source[at] === SCRIPT ? index : index + 1 });
  }
  return found;
}

/** What an instruction is: its kind, and its words' meaning. */
function copperWords({ first, second }, trace) {
  if (second < 0) return { kind: "", text: "dropped by a jump", colour: null };
  if (first % 2 === 0) {
    const register = first & 0x1fe;
    return { kind: "MOVE", text: `${trace.name(register)} ${hex(second, 4)}`, colour: isColour(register) ? second : null };
  }
  const line = first >> 8, clock = first & 0xfe, lines = ((second >> 8) & 0x7f) | 0x80, clocks = second & 0xfe;
  const masks = lines === 0xff && clocks === 0xfe ? "" : ` mask ${hex(lines, 2)} ${hex(clocks, 2)}`;
  const blitter = second & 0x8000 ? "" : " and the blitter";
  return { kind: second % 2 ? "SKIP" : "WAIT", text: `${line}, ${clock}${masks}${blitter}`, colour: null };
}

class CopperPanel {
  /** `whenChosen(place)` is called with the place of an instruction that the user wants to see. */
  constructor(trace, whenChosen) {
    Object.assign(this, { trace, whenChosen });
    this.instructions = [];
    this.chosen = -1;
    this.list = new List(byId("copper-list"), byId("copper-space"), (row, at) => this.drawRow(row, at), (at) => this.choose(at));
  }

  show(slots, frame) {
    if (this.slots === slots && this.frame === frame) return;
    Object.assign(this, { slots, frame, chosen: -1, markedLine: -1 });
    this.instructions = slots ? copperInstructions(slots, this.trace, frame) : [];
    const none = slots ? `The Copper reads nothing in frame ${frame}.` : `The log has no slots of frame ${frame}.`;
    this.list.setItems(this.instructions.map((_, at) => at), none);
    byId("copper-count").textContent = this.instructions.length ? `${countOf(this.instructions.length, "instruction")} ran in frame ${frame}` : "";
  }

  drawRow(row, at) {
    const one = this.instructions[at], { line, clock } = this.slots.field.beam(one.end), words = copperWords(one, this.trace);
    const text = element("span", "", words.text);
    if (words.colour !== null) text.append(dotOf(words.colour));
    const next = this.instructions[at + 1];
    if (words.kind === "WAIT" && next) text.append(element("i", "says", this.until(next)));
    row.classList.toggle("chosen", at === this.chosen);
    row.classList.toggle("on-line", at !== this.chosen && line === this.markedLine);
    const cells = [String(line), String(clock), hex(one.address, 5), words.kind].map((cell) => element("span", "", cell));
    row.replaceChildren(...cells, text);
    row.title = `${hex(one.first, 4)}${one.second < 0 ? "" : " " + hex(one.second, 4)}`;
  }

  /** When the next instruction is read. */
  until(next) {
    const { line, clock } = this.slots.field.beam(next.at);
    return ` until ${line}, ${clock}`;
  }

  /** Shows the instruction that ran at or before a place of the frame near the top of the list. */
  reveal(place) {
    if (!this.slots || !place) return;
    const index = this.slots.field.indexOf(place.line, place.x >> 2);
    this.markedLine = place.line;
    const after = this.instructions.findIndex((one) => one.end > index);
    this.list.reveal(Math.max(0, (after < 0 ? this.instructions.length : after) - 1), 2);
    this.list.redraw();
  }

  /** Chooses the instruction so many rows further. */
  move(step) {
    this.choose(this.list.positionBelow(this.chosen, step));
    this.list.reveal(this.chosen);
  }

  choose(at) {
    this.chosen = at;
    this.list.redraw();
    this.whenChosen(this.slots.field.beam(this.instructions[at].end));
  }
}
