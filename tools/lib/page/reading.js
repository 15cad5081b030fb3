// What stands under the pointer: the colour, the beam's place, and the last write to each register of the table.

const MOST_HELD = 4;
const FIRST_WATCHED = 3;
const NOTHING = "\u2013";

class Reading {
  /** `inputs` are the names of image and script, as a shell reads them. `whenChosen(at)` is called with the index of a
   *  write that the user wants to see. */
  constructor(trace, system, inputs, whenChosen) {
    this.trace = trace;
    this.system = system;
    this.inputs = inputs;
    this.whenChosen = whenChosen;
    this.watched = this.registersByCount().slice(0, FIRST_WATCHED);
    if (!this.watched.includes(FIRST_COLOUR)) this.watched.unshift(FIRST_COLOUR);
    this.buildChoice();
  }

  /** The registers that are written, the most often written first. */
  registersByCount() {
    const writes = [...this.trace.writes];
    return writes.sort((a, b) => b[1].length - a[1].length || a[0] - b[0]).map(([register]) => register);
  }

  /** The choice of registers to add: those that are written, by name. */
  buildChoice() {
    const select = byId("add-register");
    const named = this.registersByCount().map((register) => [this.trace.name(register), register]);
    named.sort((a, b) => a[0].localeCompare(b[0], "en", { numeric: true }));
    select.append(new Option("choose ..", ""));
    for (const [name, register] of named) {
      select.append(new Option(`${name} (${counted(this.trace.writes.get(register).length)})`, register));
    }
    select.addEventListener("change", () => {
      const register = Number(select.value);
      if (select.value && !this.watched.includes(register)) this.watched.push(register);
      select.value = "";
      this.draw();
    });
  }

  /** Shows what stands at a place of a frame; nothing where there is no place. */
  show(frame, image, place) {
    Object.assign(this, { frame, image, place });
    this.draw();
  }

  draw() {
    this.colour = null;
    if (this.place) this.drawPlace();
    else this.drawNothing();
    byId("watched").replaceChildren(...this.watched.map((register) => this.watchedRow(register)));
  }

  drawNothing() {
    for (const id of ["colour", "beam", "column", "held", "ask"]) byId(id).textContent = NOTHING;
    byId("swatch").style.background = "none";
  }

  get clock() {
    return Math.floor(this.place.x / PIXELS_A_CLOCK);
  }

  drawPlace() {
    const column = this.place.x - FIRST_CLOCK * PIXELS_A_CLOCK, row = this.place.line - this.system.firstLine;
    const inside = column >= 0 && column < WIDTH && row >= 0 && row < this.system.height;
    const colour = inside ? colourAt(this.image, column, row) : null;
    this.colour = colour;
    byId("beam").textContent = `${this.place.line}, ${this.clock}`;
    byId("ask").textContent = this.isClock() ? this.command() : NOTHING;
    byId("column").textContent = inside ? `${column}, ${row}` : "off the picture";
    byId("swatch").style.background = colour === null ? "none" : cssColour(colour);
    if (colour === null) {
      byId("colour").textContent = inside ? "not in the file" : this.isClock() ? "blanked" : "no such clock";
      byId("held").textContent = NOTHING;
      return;
    }
    byId("colour").textContent = `${hex(colour, 3)}  (${colour >> 8}, ${(colour >> 4) & 15}, ${colour & 15})`;
    this.drawHeld(colour);
  }

  /** Whether the beam comes there: with NTSC even lines have a clock less than odd ones. */
  isClock() {
    return this.place.line % 2 === 1 || this.clock < this.system.evenClocks;
  }

  /** What tells the state of the machine at the place. */
  command() {
    return `tools/look --at ${this.frame} ${this.place.line} ${this.clock} ${this.inputs}`;
  }

  /** The colour registers that hold the pixel's colour, each with a way to the write that made it so. */
  drawHeld(colour) {
    const held = this.trace.holding(colour, this.frame, this.place.line, this.clock);
    if (!held.length) {
      byId("held").textContent = "no colour register";
      return;
    }
    const parts = held.slice(0, MOST_HELD).map((register) => {
      const at = this.lastWrite(register);
      return at < 0 ? this.trace.name(register) : this.link(this.trace.name(register), at);
    });
    if (held.length > MOST_HELD) parts.push("+" + (held.length - MOST_HELD));
    byId("held").replaceChildren(...parts.flatMap((part) => [part, " "]));
  }

  lastWrite(register) {
    return this.place ? this.trace.lastWrite(register, this.frame, this.place.line, this.clock) : -1;
  }

  link(text, at) {
    const made = linkTo(text, () => this.whenChosen(at));
    made.title = "Shows this write";
    return made;
  }

  watchedRow(register) {
    const trace = this.trace, name = trace.name(register), at = this.lastWrite(register);
    const row = element("tr"), head = element("td", "", name);
    row.dataset.register = name;
    head.title = trace.purposeOf(register);
    row.append(head, ...(at < 0 ? this.unwrittenCells() : this.writtenCells(at)), this.dropCell(register, name));
    return row;
  }

  unwrittenCells() {
    return [NOTHING, this.place ? "never before" : NOTHING, NOTHING].map((text) => element("td", "", text));
  }

  writtenCells(at) {
    const trace = this.trace;
    const texts = [hex(trace.word[at], 4), "", SOURCE_NAMES[trace.source[at]]];
    const [word, where, by] = texts.map((text) => element("td", "", text));
    const frame = trace.frame[at] === this.frame ? "" : `frame ${trace.frame[at]}, `;
    where.append(this.link(`${frame}line ${trace.line[at]}, clock ${trace.clock[at]}`, at));
    by.style.color = `var(${GROUPS[trace.source[at]].colour})`;
    return [word, where, by];
  }

  dropCell(register, name) {
    const drop = element("button", "drop", "\u00d7"), cell = element("td");
    drop.type = "button";
    drop.setAttribute("aria-label", `Takes ${name} from the table`);
    drop.addEventListener("click", () => {
      this.watched = this.watched.filter((other) => other !== register);
      this.draw();
    });
    cell.append(drop);
    return cell;
  }
}
