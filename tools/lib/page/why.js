// Why the pixel under the pointer is as it is: planes, value, mode, sprites, priority and colour, by slots and trace.

const MODES = { plain: "", "half-brite": ", extra half-brite", "hold and modify": ", hold and modify", "two playfields": ", two playfields" };
const ALL_SPRITES = [0, 1, 2, 3, 4, 5, 6, 7];

class Why {
  /** `whenChosen(at)` is called with the index of a write of the trace that the user wants to see, `whenPlaced(place)` with a fetch, or with
   *  the position of a pixel. */
  constructor(box, trace, whenChosen, whenPlaced) {
    Object.assign(this, { box, trace, whenChosen, whenPlaced });
  }

  /** Shows why a pixel is so; `slots` are those of the frame, or null, and `colour` is what the frame has, or null. */
  show(slots, frame, place, colour) {
    const known = slots && place && slots.has(place.line, place.x >> 2);
    this.sources = [];
    if (!known) {
      this.box.replaceChildren(element("p", "empty", place ? this.lacking(slots) : "Point at the picture, or click a pixel."));
      return;
    }
    this.line = new DeniseLine(this.trace, slots, frame, place.line);
    this.frame = frame;
    const pixel = this.line.pixel(place.x), denise = this.line.denise;
    this.sources = this.sourcesOf(pixel, denise, place.x >> 1);
    this.box.replaceChildren(...this.parts(pixel, denise, place, colour));
  }

  /** The places of this frame at which the words were fetched that a pixel shows. */
  sourcesOf(pixel, denise, x) {
    const planes = (pixel.planes ?? []).map(({ plane, load, place }) => (place < 0 ? null : load.causes[plane - 1]));
    const words = pixel.inside ? this.runningAt(denise, x).flatMap((sprite) => denise.runs[sprite].causes.slice(2)) : [];
    return [...planes, ...words].filter((cause) => cause && cause.address >= 0 && cause.frame === this.frame);
  }

  /** The sprites whose words run at a low-resolution position. */
  runningAt(denise, x) {
    return ALL_SPRITES.filter((sprite) => denise.runs[sprite] && x - denise.runs[sprite].x < SPRITE_RUN);
  }

  lacking(slots) {
    return slots ? "The beam does not come there." : "The log has no slots of this frame.";
  }

  parts(pixel, denise, place, colour) {
    const shown = [this.answer(pixel, denise, place, colour)];
    if (!pixel.inside) return shown;
    shown.push(this.planesTable(pixel, denise), this.valueLine(pixel));
    shown.push(...this.spriteParts(pixel, denise, place.x >> 1));
    return shown;
  }

  // the answer

  answer(pixel, denise, place, colour) {
    const box = element("div", "answer"), swatch = element("div", "swatch"), said = element("div");
    swatch.style.background = cssColour(pixel.colour);
    const first = element("p", "strong");
    first.append(...this.reason(pixel, denise, place));
    said.append(first, element("p", "faint", this.mode(pixel, denise, place)));
    const warning = this.unknown(denise.unknownOf(pixel)) || this.verdict(pixel, colour);
    if (warning) said.append(element("p", "wrong", warning));
    box.append(swatch, said);
    return box;
  }

  /** Whose colour it is, and who wrote that. */
  reason(pixel, denise, place) {
    const colour = hex(pixel.colour, 3);
    if (pixel.number < 0) return [`${colour}: `, ...this.modified(pixel, place.line), "."];
    const register = FIRST_COLOUR + 2 * pixel.number, name = this.trace.name(register);
    const sprite = pixel.front && !pixel.hidden, halved = !sprite && pixel.field?.halved;
    const whose = sprite ? `${name} of the sprite` : halved ? `half of ${name}` : name;
    const cause = denise.causes[register >> 1];
    return [`${colour}: ${whose}`, ...(cause ? [", written by ", ...this.writer(cause), "."] : [", which was never written."])];
  }

  /** What hold and modify has made, with ways to the pixels that set the components which stay. */
  modified({ bits, field }, line) {
    const { modified, before, beforeFrom } = field, shifts = { red: 8, green: 4, blue: 0 };
    const others = Object.keys(shifts).filter((name) => name !== modified);
    const stays = others.map((name) => [`; ${name} stays ${(before >> shifts[name]) & 15}, `, ...this.setter(beforeFrom[name], line)]);
    return [`the planes set ${modified} to ${bits & 15}`, ...stays.flat()];
  }

  /** Which pixel set a component that stays, with a way to it. */
  setter(position, line) {
    if (position < 0) return ["as the line began"];
    return ["set at ", linkTo(`x ${position >> 1}`, () => this.whenPlaced({ frame: this.frame, line, position }))];
  }

  mode(pixel, denise, place) {
    const { lines, columns } = denise.window, within = `lines ${lines[0]} to ${lines[1] - 1}, x ${columns[0]} to ${columns[1] - 1}`;
    const here = `x ${place.x >> 1}`;
    if (!pixel.inside) return `${here} is outside the window (${within}): COLOR00.`;
    const wide = denise.word(BPLCON0) & 0x8000 ? "high" : "low";
    return `${here} is inside the window (${within}). ${countOf(denise.planes, "plane")} in ${wide} resolution${MODES[pixel.field.mode]}.`;
  }

  /** What the log does not know of the pixel; empty where it knows all. */
  unknown({ planes, sprites }) {
    const said = [planes.length && `planes ${planes.join(", ")}`, sprites.length && `sprites ${sprites.join(", ")}`].filter(Boolean);
    return said.length ? `Not certain: of ${said.join(" and ")} the words may be from before the log.` : "";
  }

  /** Whether the frame disagrees, in words; empty where it does not, or has no such pixel. */
  verdict(pixel, colour) {
    if (colour === null || colour === pixel.colour) return "";
    return `The frame has ${hex(colour, 3)} here: are log, trace and frames of one run?`;
  }

  /** Who wrote a word and when, with a way to it. */
  writer(cause) {
    const frame = cause.frame === this.frame ? "" : `frame ${cause.frame}, `;
    const where = `${frame}line ${cause.line}, clock ${cause.clock}`;
    if (cause.at < 0) return ["a fetch at ", linkTo(where, () => this.whenPlaced(cause))];
    return [`the ${SOURCE_NAMES[this.trace.source[cause.at]]} at `, linkTo(where, () => this.whenChosen(cause.at))];
  }

  // planes

  planesTable(pixel) {
    const table = this.table("planes", ["Plane", "Bit", "Of word", "At", "Read"]);
    for (const shown of [...pixel.planes].reverse()) table.tBodies[0].append(this.planeRow(shown));
    if (!pixel.planes.length) return element("p", "faint", "No plane is on: the value is 0.");
    return table;
  }

  planeRow({ plane, load, place, bit }) {
    if (!load) return this.row([`${plane}`, "0", "no load yet on this line"]);
    const word = load.words[plane - 1], cause = load.causes[plane - 1];
    if (load.unknown[plane - 1]) return this.row([`${plane}`, "?", "not known: from before the log"]);
    if (place < 0) return this.row([`${plane}`, "0", hex(word, 4), this.address(cause), "its 16 bits have passed"]);
    const bits = element("span", "bits");
    const text = word.toString(2).padStart(16, "0");
    bits.append(text.slice(0, 15 - place), element("b", "", text[15 - place]), text.slice(16 - place));
    bits.title = `bit ${place} of ${hex(word, 4)}`;
    return this.row([`${plane}`, element("b", bit ? "one" : "zero", String(bit)), bits, this.address(cause), this.when(cause)]);
  }

  address(cause) {
    if (!cause) return NOTHING;
    return cause.address < 0 ? "a write" : hex(cause.address, 5);
  }

  when(cause) {
    if (!cause) return "never";
    const text = (cause.frame === this.frame ? "" : `${cause.frame}: `) + `${cause.line}, ${cause.clock}`;
    return linkTo(text, () => (cause.at < 0 ? this.whenPlaced(cause) : this.whenChosen(cause.at)));
  }

  valueLine({ bits, field, planes }) {
    const line = element("p", "value"), binary = bits.toString(2).padStart(Math.max(1, planes.length), "0");
    line.append("Value ", element("b", "", String(bits)), ` (${binary})`);
    if (field.mode === "two playfields") line.append(`: playfield 1 has ${field.one}, playfield 2 has ${field.two}, and ${field.chosen} is in front`);
    if (field.modified) line.append(`: planes 6 and 5 name ${field.modified}`);
    if (field.halved) line.append(": plane 6 halves the colour");
    if (field.number >= 0) line.append(`, ${this.trace.name(FIRST_COLOUR + 2 * field.number)}`);
    return line;
  }

  // sprites

  spriteParts(pixel, denise, x) {
    const runs = this.runningAt(denise, x);
    const parts = [];
    if (runs.length) {
      const table = this.table("sprites", ["Sprite", "Value", "DATB, DATA", "At", "Read", "Pair"]);
      for (const sprite of runs) table.tBodies[0].append(this.spriteRow(sprite, denise, x));
      parts.push(table);
    }
    parts.push(element("p", "value", this.priority(pixel, runs)));
    return parts;
  }

  spriteRow(sprite, denise, x) {
    const run = denise.runs[sprite], pair = sprite >> 1;
    const [, , data, datb] = run.causes, at = [datb, data].map((cause) => this.address(cause)).join(", ");
    const words = `${hex(run.datb, 4)}, ${hex(run.data, 4)} bit ${15 - (x - run.x)}`;
    const value = String(denise.spriteValue(sprite, x));
    return this.row([`${sprite}`, value, words, at, this.when(data), `${pair}`]);
  }

  priority({ front, hidden, field }, runs) {
    if (!front) return runs.length ? "All sprites here are transparent." : "No sprite runs here.";
    const name = this.trace.name(FIRST_COLOUR + 2 * front.number), what = `value ${front.value}, ${name}`;
    const of = front.attached ? `The attached pair ${front.pair} (${what})` : `The sprite of pair ${front.pair} (${what})`;
    const code = `${field.chosen === 1 ? "PF1P" : "PF2P"} is ${field.code}`;
    if (hidden) return `${of} is hidden: the playfield's value is not 0, and ${code}, which lets pairs below ${field.code} before it.`;
    return field.value ? `${of} is in front: ${code}, and its pair is below that.` : `${of} is in front: the playfield is transparent here.`;
  }

  // tables

  table(name, heads) {
    const table = element("table", "registers " + name), row = element("tr");
    row.append(...heads.map((head) => element("th", "", head)));
    table.createTHead().append(row);
    table.createTBody();
    return table;
  }

  row(cells) {
    const row = element("tr");
    cells.forEach((cell, at) => {
      const made = element("td");
      made.append(cell);
      if (at === 2 && cells.length === 3) made.colSpan = 3;
      row.append(made);
    });
    return row;
  }
}
