// The field as a map: each clock in the colour of the owner of its slot.

// how much of the picture is left where the map is over it: below a slot, and where the slot is free
const LEFT_BELOW = 0.25, LEFT_FREE = 0.7;

class SlotMap {
  constructor(system, field) {
    this.field = field;
    this.sheet = new OffscreenCanvas(system.clocks, system.lines);
    // whether it is drawn over the picture
    this.over = false;
    this.shown = OWNERS.map(() => true);
    this.colours = OWNERS.map((owner) => rgbOf(getComputedStyle(document.documentElement).getPropertyValue(owner.colour).trim()));
    // the first clock of the field that is marked, and the one behind the last; none where they are equal
    this.marked = [0, 0];
    // the places of the slots that a pixel comes from
    this.sources = [];
  }

  /** Paints the slots of a frame; nothing where there are none. */
  paint(slots) {
    this.slots = slots;
    const { width, height } = this.sheet, image = new ImageData(width, height);
    for (let line = 0; slots && line < slots.lines; line++) this.paintLine(image, slots, line);
    this.sheet.getContext("2d").putImageData(image, 0, 0);
  }

  paintLine(image, slots, line) {
    const end = Math.min(this.field.lineStart(line + 1), slots.count);
    let to = 4 * line * image.width;
    for (let at = this.field.lineStart(line); at < end; at++, to += 4) {
      const owner = OWNER_OF[slots.codes[at]], free = owner === FREE || !this.shown[owner];
      image.data.set(this.colours[free ? FREE : owner], to);
      if (this.over) image.data[to + 3] = 255 * (1 - (free ? LEFT_FREE : LEFT_BELOW));
    }
  }

  /** Draws the map over what a picture shows of the field. */
  draw(pen, picture) {
    if (!this.slots) return;
    const [x, y] = picture.toCanvas(0, 0), width = PIXELS_A_CLOCK * picture.zoom, height = TALL * picture.zoom;
    const region = picture.region(), clock = region.x / PIXELS_A_CLOCK;
    pen.imageSmoothingEnabled = width < 1 || height < 1;
    const across = region.width / PIXELS_A_CLOCK, left = x + clock * width, top = y + region.line * height;
    pen.drawImage(this.sheet, clock, region.line, across, region.height, left, top, across * width, region.height * height);
    pen.imageSmoothingEnabled = false;
    this.drawMarked(pen, picture);
    for (const { line, clock } of this.sources) this.drawSource(pen, ...picture.toCanvas(clock * PIXELS_A_CLOCK, line), width, height);
  }

  drawSource(pen, x, y, width, height) {
    pen.lineWidth = 1;
    pen.strokeStyle = "#000";
    pen.strokeRect(x - 2.5, y - 2.5, width + 5, height + 5);
    pen.strokeStyle = "#fff";
    pen.strokeRect(x - 1.5, y - 1.5, width + 3, height + 3);
  }

  /** Darkens all clocks but those that are marked. */
  drawMarked(pen, picture) {
    const [from, end] = this.marked;
    if (from >= end) return;
    pen.fillStyle = "#08090cb4";
    this.cover(pen, picture, 0, from);
    this.cover(pen, picture, end, this.slots.count);
  }

  /** Fills the clocks of the field from one up to another: a part of a line, whole lines, and a part of a line. */
  cover(pen, picture, from, end) {
    if (from >= end) return;
    const first = this.field.beam(from), last = this.field.beam(end - 1);
    const clocks = (line) => this.field.lineStart(line + 1) - this.field.lineStart(line);
    if (first.line === last.line) return this.fill(pen, picture, first.line, 1, first.clock, last.clock + 1);
    this.fill(pen, picture, first.line, 1, first.clock, clocks(first.line));
    this.fill(pen, picture, first.line + 1, last.line - first.line - 1, 0, clocks(last.line));
    this.fill(pen, picture, last.line, 1, 0, last.clock + 1);
  }

  fill(pen, picture, line, lines, from, end) {
    const [left, top] = picture.toCanvas(from * PIXELS_A_CLOCK, line), [right, bottom] = picture.toCanvas(end * PIXELS_A_CLOCK, line + lines);
    pen.fillRect(left, top, right - left, bottom - top);
  }
}

/** Red, green, blue and opacity of a colour as #rrggbb. */
function rgbOf(text) {
  return [1, 3, 5].map((at) => parseInt(text.slice(at, at + 2), 16)).concat(255);
}
