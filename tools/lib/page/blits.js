// The blits of a frame as bars over its time, and what each was.

const BLIT_REGISTERS = [
  ["Control", [BLTCON0, BLTCON1]], ["Masks of A", [0x44, 0x46]], ["Modulos A, B, C, D", [0x64, 0x62, 0x60, 0x66]],
  ["Data A, B, C", [0x74, 0x72, 0x70]],
];

// what stands where blits or functions are to come
const READING_LOG = "Reading the log ..";

// the fields of BLTCON1 in a blit that draws a line
const LINE_FIELDS = [[15, 12, "BSH"], [6, 6, "SIGN"], [4, 4, "SUD"], [3, 3, "SUL"], [2, 2, "AUL"], [1, 1, "SING"]];

class BlitPanel {
  /** `whenChosen(blit)` is called with a blit that the user wants to see, `whenWritten(at)` with the index of the write that starts one. */
  constructor(field, trace, whenChosen, whenWritten) {
    Object.assign(this, { field, trace, whenChosen, whenWritten });
    // those of all frames, once they were asked for
    this.blits = null;
    this.chosen = null;
    const strip = byId("blit-strip");
    strip.addEventListener("click", (event) => {
      const left = event.clientX - strip.getBoundingClientRect().left;
      this.chooseNear(Math.floor((left / strip.clientWidth) * this.clocks));
    });
    this.list = new List(byId("blit-list"), byId("blit-space"), (row, at) => this.drawRow(row, at), (at) => this.choose(at));
  }

  /** Shows the blits that run in a frame of `clocks` clocks; 0 of a frame of which the log has no slots. */
  show(frame, clocks) {
    Object.assign(this, { frame, clocks });
    if (!this.blits) return this.list.setItems([], READING_LOG);
    const items = [];
    this.blits.forEach(({ start, end }, at) => {
      if (start.frame <= frame && frame <= (end ?? start).frame) items.push(at);
    });
    this.list.setItems(clocks ? items : [], clocks ? `No blit runs in frame ${frame}.` : `The log has no slots of frame ${frame}.`);
    const busy = items.reduce((sum, at) => sum + this.clocksOf(this.blits[at]), 0);
    byId("blit-count").textContent = items.length ? `${countOf(items.length, "blit")}, busy for ${counted(busy)} of ${counted(clocks)} clocks` : "";
    byId("blit-strip").replaceChildren(...this.list.items.map((at) => this.barOf(this.blits[at])));
    if (!items.includes(this.blits.indexOf(this.chosen))) this.choose(-1);
  }

  /** The bar of a blit over the time of the frame. */
  barOf(blit) {
    const [from, end] = this.range(blit), bar = element("i");
    bar.style.left = (100 * from) / this.clocks + "%";
    bar.style.width = `max(2px, ${(100 * (end - from)) / this.clocks}%)`;
    return bar;
  }

  /** The first clock of a blit in the frame that is shown, and the one behind its last. */
  range({ start, end }) {
    const from = start.frame < this.frame ? 0 : start.index;
    const last = !end ? from : end.frame === this.frame ? end.index : end.frame > this.frame ? this.clocks - 1 : from;
    return [from, last + 1];
  }

  clocksOf(blit) {
    const [from, end] = this.range(blit);
    return end - from;
  }

  drawRow(row, at) {
    const blit = this.blits[at], bar = element("span", "bar-of"), [from, end] = this.range(blit);
    bar.append(this.barOf(blit));
    row.classList.toggle("chosen", blit === this.chosen);
    const { line, clock } = this.field.beam(blit.start.index);
    const place = blit.start.frame === this.frame ? `${line}, ${clock}` : `frame ${blit.start.frame}`;
    const texts = [place, blit.at < 0 ? "?" : blit.channels || "none", this.sizeOf(blit), counted(end - from)];
    row.replaceChildren(...texts.map((text) => element("span", "", text)), bar);
  }

  sizeOf(blit) {
    if (blit.at < 0) return "from before";
    return blit.line ? `line ${blit.height}` : `${blit.width} x ${blit.height}`;
  }

  choose(at) {
    this.chosen = this.blits?.[at] ?? null;
    this.list.redraw();
    byId("blit-detail").replaceChildren(...(this.chosen ? this.detail(this.chosen) : ["Choose a blit: its clocks are marked in the map."]));
    this.whenChosen(this.chosen);
  }

  /** Chooses the blit that runs at a clock of the field, if one does. */
  chooseAt(index) {
    const at = this.list.items.findIndex((item) => {
      const [from, end] = this.range(this.blits[item]);
      return from <= index && index < end;
    });
    if (at >= 0) this.goTo(at);
  }

  /** Chooses the blit that runs at a clock of the field, or the one that begins next to it. */
  chooseNear(index) {
    const far = this.list.items.map((item) => {
      const [from, end] = this.range(this.blits[item]);
      return Math.max(from - index, index - end + 1, 0);
    });
    if (far.length) this.goTo(far.indexOf(Math.min(...far)));
  }

  /** Chooses the blit at a position of the list. */
  goTo(position) {
    this.choose(this.list.items[position]);
    this.list.reveal(position);
  }

  /** Chooses the blit so many rows further. */
  move(step) {
    const position = this.list.items.indexOf(this.blits.indexOf(this.chosen));
    this.goTo(this.list.positionBelow(position, step));
  }

  detail(blit) {
    if (blit.at < 0) return ["A blit that began before the log, or before the frames of this page: its registers are not known."];
    const { reads, writes, rests, slots: taken } = blit;
    const head = element("p", "strong", this.headline(blit));
    const part = Math.round((100 * taken) / Math.max(1, blit.clocks));
    const rest = taken < blit.asks ? ` It has not ended in the log: ${counted(blit.asks)} slots are wanted.` : "";
    const kinds = `${countOf(reads, "read")}, ${countOf(writes, "write")}, ${countOf(rests, "rest")}`;
    const slots = `${countOf(taken, "slot")} in ${countOf(blit.clocks, "clock")} (${part} %): ${kinds}.${rest}`;
    const table = element("dl", "facts wide");
    for (const [channel, [first, last]] of Object.entries(blit.addresses)) {
      table.append(this.fact(`Channel ${channel}`, `${hex(first, 5)} to ${hex(last, 5)}`));
    }
    for (const [name, registers] of BLIT_REGISTERS) {
      table.append(this.fact(name, registers.map((one) => hex(blit.word(one), 4)).join(" ")));
    }
    return [head, this.startOf(blit), element("p", "faint", slots), table];
  }

  /** Who started a blit and when, with a way to that write. */
  startOf({ start, at }) {
    const line = element("p", "faint"), beam = this.field.beam(start.index);
    const where = `${start.frame === this.frame ? "" : `frame ${start.frame}, `}line ${beam.line}, clock ${beam.clock}`;
    line.append(`Started by the ${SOURCE_NAMES[this.trace.source[at]]} at `, linkTo(where, () => this.whenWritten(at)), ".");
    return line;
  }

  headline(blit) {
    const kind = blit.line ? `Line of ${countOf(blit.height, "point")}` : `${countOf(blit.width, "word")} by ${countOf(blit.height, "row")}`;
    const first = blit.word(BLTCON0), fields = blit.line ? LINE_FIELDS : this.trace.registers["042"][3];
    const control = [`LF ${hex(first & 255, 2)}`, `ASH ${first >> 12}`, fieldsOf(fields, blit.word(BLTCON1))].join(", ");
    return `${kind}, channels ${blit.channels || "none"}: ${control}`;
  }

  fact(name, text) {
    const row = element("div");
    row.append(element("dt", "", name), element("dd", "mono", text));
    return row;
  }
}
