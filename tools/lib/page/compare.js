// The page of two runs: the frames that differ, a lens at the pointer, and the first differences of trace and memory.

const LENS_WIDTH = 60, LENS_HEIGHT = 14, LENS_ZOOM = 10;
const BLINK_MILLISECONDS = 400;
const SIDES = ["left", "right", "differ"];
const DIFFERENT_COLOUR = [255, 59, 107];

class Comparison {
  constructor(data) {
    this.data = data;
    this.index = 0;
    this.place = data.first ? { column: data.first[0], row: data.first[1] } : { column: 0, row: 0 };
    this.blinking = 0;
    this.showWords();
    this.showTrace();
    this.showMemory();
    byId("pictures").hidden = !data.frames.length;
    if (!data.frames.length) return;
    const lens = { width: LENS_WIDTH * LENS_ZOOM, height: 2 * LENS_HEIGHT * LENS_ZOOM };
    for (const id of SIDES) {
      Object.assign(byId(id), { width: WIDTH, height: data.system.height });
      Object.assign(byId(id + "-lens"), lens);
    }
    byId("frame-slider").max = data.frames.length - 1;
    this.listen();
    this.goToFrame(0);
  }

  // words

  showWords() {
    const verdict = byId("verdict"), said = [lacking(), ...this.data.said].filter(Boolean);
    verdict.textContent = this.data.said.length ? "different" : "equal";
    verdict.classList.toggle("equal", !this.data.said.length);
    if (!this.data.said.length) said.push(`Every pixel, trace line and byte is the same: ${this.data.size}.`);
    byId("said").append(...said.map((text) => element("li", "", text)));
  }

  showTrace() {
    byId("trace-part").hidden = !this.data.trace.length;
    const rows = this.data.trace.map(([leftNumber, left, rightNumber, right]) => {
      const [ours, theirs] = [left, right].map((text) => text.split(/(?= )/));
      const cells = left && right ? [marked(ours, theirs), marked(theirs, ours)] : [ours, theirs];
      return pairRow([leftNumber ?? "", rightNumber ?? ""], ...cells, left !== right);
    });
    if (rows.length) byId("trace").append(headRow("line", "left", "line", "right"), ...rows);
  }

  showMemory() {
    byId("memory-part").hidden = !this.data.memory.length;
    const rows = this.data.memory.map(([at, left, right]) => {
      const [ours, theirs] = [left, right].map((text) => text.match(/.{4}/g).map((word) => word + " "));
      return pairRow([hex(at, 5), ""], marked(ours, theirs), marked(theirs, ours), true);
    });
    if (rows.length) byId("memory").append(headRow("byte", "left", "", "right"), ...rows);
  }

  // frames

  async goToFrame(index) {
    const last = this.data.frames.length - 1;
    this.index = Math.min(last, Math.max(0, index));
    const frame = this.data.frames[this.index];
    byId("frame-slider").value = this.index;
    byId("previous").disabled = this.index === 0;
    byId("next").disabled = this.index === last;
    const more = this.data.more && this.index === last ? ` (${this.data.more} more frames differ)` : "";
    const count = frame.pixels === 1 ? "1 pixel differs" : `${counted(frame.pixels)} pixels differ`;
    byId("frame-label").textContent = `frame ${frame.number}: ${count}${more}`;
    const wanted = this.index;
    const images = await Promise.all(frame.sides.map((side) => pixelsOf(side.pixels, this.data.system.height)));
    if (wanted !== this.index) return;
    this.images = [...images, differenceOf(images[0], images[1])];
    if (!this.differsAt(this.place.column, this.place.row)) this.findNext();
    this.draw();
  }

  draw(leftSide = 0) {
    if (!this.images) return;
    SIDES.forEach((id, side) => {
      const image = this.images[side === 0 ? leftSide : side];
      const pen = byId(id).getContext("2d");
      pen.putImageData(image, 0, 0);
      this.drawLens(byId(id + "-lens"), byId(id));
      this.drawCross(pen);
    });
    this.showReading();
  }

  drawCross(pen) {
    const { column, row } = this.place;
    pen.fillStyle = "#ffffffb0";
    pen.fillRect(column - 24, row, 18, 1);
    pen.fillRect(column + 7, row, 18, 1);
    pen.fillRect(column, row - 12, 1, 9);
    pen.fillRect(column, row + 4, 1, 9);
  }

  drawLens(lens, sheet) {
    const pen = lens.getContext("2d"), { column, row } = this.place;
    pen.imageSmoothingEnabled = false;
    pen.fillStyle = "#16181d";
    pen.fillRect(0, 0, lens.width, lens.height);
    const left = column - LENS_WIDTH / 2, top = row - LENS_HEIGHT / 2;
    pen.drawImage(sheet, left, top, LENS_WIDTH, LENS_HEIGHT, 0, 0, lens.width, lens.height);
    pen.strokeStyle = "#fff";
    pen.lineWidth = 2;
    pen.strokeRect((LENS_WIDTH / 2) * LENS_ZOOM - 1, LENS_HEIGHT * LENS_ZOOM - 1, LENS_ZOOM + 2, 2 * LENS_ZOOM + 2);
  }

  showReading() {
    const { column, row } = this.place, system = this.data.system;
    const clock = FIRST_CLOCK + Math.floor(column / PIXELS_A_CLOCK);
    const parts = [`line ${row + system.firstLine}, clock ${clock} (column ${column}, row ${row})`];
    for (const side of [0, 1]) {
      const colour = colourAt(this.images[side], column, row);
      const dot = element("i");
      dot.style.background = cssColour(colour);
      parts.push(`   ${SIDES[side]} `, dot, hex(colour, 3));
    }
    byId("reading").replaceChildren(...parts);
  }

  differsAt(column, row) {
    return this.images && colourAt(this.images[0], column, row) !== colourAt(this.images[1], column, row);
  }

  /** Moves the cursor to the next pixel that differs, from the frame's begin again after its end. */
  findNext() {
    const size = WIDTH * this.data.system.height;
    const from = this.place.row * WIDTH + this.place.column;
    for (let step = 1; step <= size; step++) {
      const at = (from + step) % size;
      if (!this.differsAt(at % WIDTH, Math.floor(at / WIDTH))) continue;
      this.place = { column: at % WIDTH, row: Math.floor(at / WIDTH) };
      break;
    }
    this.draw();
  }

  setBlinking(blinking) {
    clearInterval(this.blinking);
    byId("blink").setAttribute("aria-pressed", String(blinking));
    let side = 0;
    const show = () => {
      byId("left-caption").textContent = SIDES[side];
      byId("left-caption").className = "side-name " + SIDES[side];
      this.draw(side);
    };
    this.blinking = blinking ? setInterval(() => ((side = 1 - side), show()), BLINK_MILLISECONDS) : 0;
    show();
  }

  // keys and mouse

  listen() {
    const click = (id, act) => byId(id).addEventListener("click", act);
    click("previous", () => this.goToFrame(this.index - 1));
    click("next", () => this.goToFrame(this.index + 1));
    click("blink", () => this.setBlinking(!this.blinking));
    click("find", () => this.findNext());
    byId("frame-slider").addEventListener("input", (event) => this.goToFrame(Number(event.target.value)));
    for (const id of SIDES) byId(id).addEventListener("pointermove", (event) => this.point(event));
    document.addEventListener("keydown", (event) => this.press(event));
  }

  point(event) {
    const box = event.target.getBoundingClientRect();
    const across = (event.clientX - box.left) / box.width, down = (event.clientY - box.top) / box.height;
    this.moveTo(across * WIDTH, down * this.data.system.height);
  }

  moveTo(column, row) {
    const within = (value, end) => Math.min(end - 1, Math.max(0, Math.floor(value)));
    this.place = { column: within(column, WIDTH), row: within(row, this.data.system.height) };
    this.draw();
  }

  press(event) {
    if (event.ctrlKey || event.metaKey || event.altKey) return;
    const arrows = { ArrowLeft: [-1, 0], ArrowRight: [1, 0], ArrowUp: [0, -1], ArrowDown: [0, 1] };
    const arrow = event.target.matches("canvas") ? arrows[event.key] : null;
    const leap = event.shiftKey ? [PIXELS_A_CLOCK, 8] : [1, 1];
    if (arrow) this.moveTo(this.place.column + arrow[0] * leap[0], this.place.row + arrow[1] * leap[1]);
    else if (event.key === "," || event.key === "PageUp") this.goToFrame(this.index - 1);
    else if (event.key === "." || event.key === "PageDown") this.goToFrame(this.index + 1);
    else if (event.key === "n") this.findNext();
    else if (event.key === " " && !event.target.matches("button")) this.setBlinking(!this.blinking);
    else return;
    event.preventDefault();
  }
}

/** The left frame in dark grey, and the pixels at which the right one differs in a colour of their own. */
function differenceOf(left, right) {
  const made = new ImageData(left.width, left.height);
  for (let at = 0; at < left.data.length; at += 4) {
    const [r, g, b] = left.data.subarray(at, at + 3);
    const same = r === right.data[at] && g === right.data[at + 1] && b === right.data[at + 2];
    const grey = (r * 3 + g * 6 + b) / 40;
    made.data.set(same ? [grey, grey, grey, 255] : [...DIFFERENT_COLOUR, 255], at);
  }
  return made;
}

/** Pieces of a text, those marked at which another text differs. */
function marked(pieces, others) {
  return pieces.map((piece, at) => (piece === others[at] ? piece : element("mark", "", piece)));
}

function headRow(...names) {
  const row = element("tr");
  row.append(...names.map((name) => element("th", "", name)));
  return row;
}

/** A row of a table of two sides: each with its place and its pieces. */
function pairRow(places, left, right, differs) {
  const row = element("tr", differs ? "differ" : "");
  [left, right].forEach((pieces, side) => {
    const cell = element("td");
    cell.append(...pieces);
    row.append(element("td", "place", String(places[side])), cell);
  });
  return row;
}

const comparison = new Comparison(JSON.parse(byId("data").textContent));
