// The picture of a frame in its field, with rulers of lines and clocks and the marks of the trace.

const RULER_LEFT = 34, RULER_TOP = 20;
const LEAST_ZOOM = 0.1, MOST_ZOOM = 12;
// a high-resolution pixel is half as wide as high
const TALL = 2;
const MARK_REACH = 5;
const DRAG_BEGINS = 4;

/** The smallest of some round steps that keeps labels `room` apart. */
function stepOf(size, room) {
  return [1, 2, 5, 10, 20, 50].find((step) => step * size >= room) || 100;
}

class Picture {
  /** `system` is the machine's: height, firstLine, lines, clocks, and evenClocks, those of a line with an even number. `trace` gives the places of marks. */
  constructor(parts, system, trace, colours) {
    Object.assign(this, parts);
    this.system = system;
    this.trace = trace;
    this.colours = colours;
    this.zoom = 1;
    // whether the zoom is that at which all is in view, and goes with the viewport's size
    this.fitted = true;
    // where the mouse stands on the canvas, as its last event told
    this.pointer = null;
    this.blanking = true;
    this.marksShown = true;
    this.image = null;
    this.rows = system.height;
    this.marks = [];
    this.chosen = -1;
    this.hover = null;
    this.cursor = null;
    // a map of the slots that is drawn over the field, or in place of its picture
    this.overlay = this.ground = null;
    this.sheet = new OffscreenCanvas(WIDTH, system.height);
    this.redraw = onceBeforeDrawing(() => this.draw());
    new ResizeObserver(() => this.resize()).observe(this.viewport);
    this.viewport.addEventListener("scroll", () => {
      this.pointAgain();
      this.redraw();
    });
    this.listen();
  }

  /** The part of the field that is shown, in pixels across and lines down. */
  region() {
    const s = this.system;
    if (this.blanking) return { x: 0, line: 0, width: s.clocks * PIXELS_A_CLOCK, height: s.lines };
    return { x: FIRST_CLOCK * PIXELS_A_CLOCK, line: s.firstLine, width: WIDTH, height: s.height };
  }

  /** The greatest zoom at which all of the region is in view, or the whole number that is little less. */
  fittingZoom() {
    const region = this.region(), box = this.viewport;
    // without the bars of the viewport, which are not there once it fits
    const across = (box.offsetWidth - 2 * box.clientLeft - RULER_LEFT) / region.width;
    const down = (box.offsetHeight - 2 * box.clientTop - RULER_TOP) / (TALL * region.height);
    const zoom = Math.min(MOST_ZOOM, Math.max(LEAST_ZOOM, Math.min(across, down))), whole = Math.floor(zoom);
    return zoom < whole * 1.05 ? whole : zoom;
  }

  /** Shows all of the region, as large as it goes, also after the viewport has got another size. */
  fit() {
    this.fitted = true;
    this.resize();
  }

  resize() {
    if (this.fitted) {
      this.zoom = this.fittingZoom();
      this.whenZoomed(this.zoom, true);
    }
    const { clientWidth, clientHeight } = this.viewport;
    const region = this.region();
    // a rest of a pixel brings no bar
    const width = Math.floor(RULER_LEFT + region.width * this.zoom);
    const height = Math.floor(RULER_TOP + region.height * TALL * this.zoom);
    this.spacer.style.width = Math.max(width, clientWidth) + "px";
    this.spacer.style.height = Math.max(height, clientHeight) + "px";
    const scale = window.devicePixelRatio || 1;
    // the bars of the viewport may have come or gone
    const shown = { width: this.viewport.clientWidth, height: this.viewport.clientHeight };
    this.pad = Math.max(0, Math.floor((shown.width - width) / 2));
    this.canvas.style.width = shown.width + "px";
    this.canvas.style.height = shown.height + "px";
    this.canvas.width = Math.round(shown.width * scale);
    this.canvas.height = Math.round(shown.height * scale);
    this.pointAgain();
    this.redraw();
  }

  /** The place on the canvas of a pixel's upper left corner, by its position in the line and its line. */
  toCanvas(x, line) {
    const region = this.region();
    return [
      RULER_LEFT + this.pad + (x - region.x) * this.zoom - this.viewport.scrollLeft,
      RULER_TOP + (line - region.line) * TALL * this.zoom - this.viewport.scrollTop,
    ];
  }

  /** The pixel at a place on the canvas; null where none is shown. */
  fromCanvas(left, top) {
    if (left < RULER_LEFT || top < RULER_TOP) return null;
    const region = this.region();
    const x = Math.floor((left - RULER_LEFT - this.pad + this.viewport.scrollLeft) / this.zoom);
    const line = Math.floor((top - RULER_TOP + this.viewport.scrollTop) / (TALL * this.zoom));
    if (x < 0 || line < 0 || x >= region.width || line >= region.height) return null;
    return { x: x + region.x, line: line + region.line };
  }

  /** Zooms so that what is under a place of the canvas stays there; the middle where none is given. */
  zoomTo(zoom, left = this.viewport.clientWidth / 2, top = this.viewport.clientHeight / 2) {
    const wanted = Math.min(MOST_ZOOM, Math.max(LEAST_ZOOM, zoom));
    if (wanted === this.zoom && !this.fitted) return;
    const across = (left - RULER_LEFT - this.pad + this.viewport.scrollLeft) / this.zoom;
    const down = (top - RULER_TOP + this.viewport.scrollTop) / this.zoom;
    this.fitted = false;
    this.zoom = wanted;
    this.resize();
    this.viewport.scrollLeft = across * wanted - (left - RULER_LEFT - this.pad);
    this.viewport.scrollTop = down * wanted - (top - RULER_TOP);
    this.whenZoomed(wanted, false);
    this.pointAgain();
  }

  /** Zooms by a step, in or out: the steps are the whole numbers, and before them the zoom at which all is in view. */
  zoomBy(step, left, top) {
    const next = step > 0 ? Math.floor(this.zoom) + 1 : Math.ceil(this.zoom) - 1;
    if (step < 0 && next <= this.fittingZoom()) this.fit();
    else this.zoomTo(next, left, top);
  }

  /** Scrolls as little as shows a pixel away from the edges. */
  reveal(x, line) {
    const [left, top] = this.toCanvas(x, line);
    const { clientWidth: width, clientHeight: height } = this.viewport;
    if (left < RULER_LEFT + 20 || left > width - 60) this.viewport.scrollLeft += left - width / 2;
    if (top < RULER_TOP + 20 || top > height - 40) this.viewport.scrollTop += top - height / 2;
  }

  /** Changes what is shown: `marksShown`, `blanking`. */
  show(choices) {
    Object.assign(this, choices);
    this.resize();
  }

  setFrame(image, rows) {
    this.image = image;
    this.rows = rows;
    if (image) this.sheet.getContext("2d").putImageData(image, 0, 0);
    this.redraw();
  }

  draw() {
    const scale = this.canvas.width / Math.max(1, this.canvas.clientWidth);
    const pen = this.canvas.getContext("2d");
    pen.setTransform(scale, 0, 0, scale, 0, 0);
    pen.clearRect(0, 0, this.canvas.clientWidth, this.canvas.clientHeight);
    if (this.ground) this.ground.draw(pen, this);
    else this.drawField(pen);
    this.overlay?.draw(pen, this);
    if (this.marksShown) this.drawMarks(pen);
    this.drawPlace(pen, this.cursor, "#ffffff");
    if (this.hover) this.drawPlace(pen, this.hover, "#ffffff80");
    this.drawRulers(pen);
  }

  drawField(pen) {
    const region = this.region();
    const [left, top] = this.toCanvas(region.x, region.line);
    pen.fillStyle = "#16181d";
    pen.fillRect(left, top, region.width * this.zoom, region.height * TALL * this.zoom);
    const [x, y] = this.toCanvas(FIRST_CLOCK * PIXELS_A_CLOCK, this.system.firstLine);
    const width = WIDTH * this.zoom, height = this.system.height * TALL * this.zoom;
    if (this.rows < this.system.height) this.drawMissing(pen, x, y, width, height);
    if (this.image) {
      // below a zoom of 1 pixels are left out: the ones that are drawn have the colours of their neighbours in them
      pen.imageSmoothingEnabled = this.zoom < 1;
      pen.drawImage(this.sheet, 0, 0, WIDTH, this.rows, x, y, width, this.rows * TALL * this.zoom);
      pen.imageSmoothingEnabled = false;
    }
    if (this.blanking) {
      pen.strokeStyle = "#4a5160";
      pen.lineWidth = 1;
      pen.strokeRect(x - 0.5, y - 0.5, width + 1, height + 1);
    }
  }

  /** Stripes where a frame that is cut short has no rows. */
  drawMissing(pen, x, y, width, height) {
    pen.save();
    pen.beginPath();
    pen.rect(x, y, width, height);
    pen.clip();
    pen.strokeStyle = "#3a2a2a";
    pen.lineWidth = 4;
    for (let at = -height; at < width; at += 16) {
      pen.beginPath();
      pen.moveTo(x + at, y + height);
      pen.lineTo(x + at + height, y);
      pen.stroke();
    }
    pen.restore();
  }

  /** Whether the clock of a trace line is in the part of the field that is shown. */
  inRegion(at) {
    const region = this.region();
    const x = this.trace.clock[at] * PIXELS_A_CLOCK - region.x, line = this.trace.line[at] - region.line;
    return x >= 0 && x < region.width && line >= 0 && line < region.height;
  }

  /** The place of a line's mark on the canvas: the four pixels of its clock. */
  markPlace(at) {
    return this.toCanvas(this.trace.clock[at] * PIXELS_A_CLOCK, this.trace.line[at]);
  }

  drawMarks(pen) {
    const width = PIXELS_A_CLOCK * this.zoom, height = TALL * this.zoom;
    const bottom = this.canvas.clientHeight, right = this.canvas.clientWidth;
    const seen = [];
    for (const at of this.marks) {
      if (!this.inRegion(at)) continue;
      const [x, y] = this.markPlace(at);
      if (x > -width && y > -height && x < right && y < bottom) seen.push([at, x, y]);
    }
    pen.fillStyle = "#000c";
    for (const [at, x, y] of seen) {
      if (this.trace.kind[at] !== INTERRUPT) pen.fillRect(x - 1, y - 1, width + 2, height + 2);
    }
    for (const [at, x, y] of seen) this.drawMark(pen, at, x, y, width, height);
    if (this.chosen >= 0 && this.trace.frame[this.chosen] === this.frameNumber) this.drawChosen(pen, width, height);
  }

  drawMark(pen, at, x, y, width, height) {
    const group = this.trace.group(at);
    pen.fillStyle = this.colours[group];
    if (this.trace.kind[at] === INTERRUPT) {
      this.drawTriangle(pen, x + width / 2, y + height / 2);
      return;
    }
    pen.fillRect(x, y, width, height);
    if (height < 6) return;
    // larger marks are frames, so that the picture is seen in them
    const edge = group === 3 ? 1 : 2;
    this.drawInside(pen, at, x + edge, y + edge, width - 2 * edge, height - 2 * edge);
  }

  drawTriangle(pen, x, y) {
    pen.beginPath();
    pen.moveTo(x, y - 6);
    pen.lineTo(x + 5.5, y + 4);
    pen.lineTo(x - 5.5, y + 4);
    pen.closePath();
    pen.lineWidth = 2;
    pen.strokeStyle = "#000c";
    pen.stroke();
    pen.fill();
  }

  /** The picture again inside a mark, or the ground where the mark is off the picture. */
  drawInside(pen, at, x, y, width, height) {
    const column = (this.trace.clock[at] - FIRST_CLOCK) * PIXELS_A_CLOCK;
    const row = this.trace.line[at] - this.system.firstLine;
    pen.fillStyle = "#16181d";
    pen.fillRect(x, y, width, height);
    if (this.image && column >= 0 && row >= 0 && row < this.rows) {
      pen.drawImage(this.sheet, column, row, PIXELS_A_CLOCK, 1, x, y, width, height);
    }
  }

  drawChosen(pen, width, height) {
    const [x, y] = this.markPlace(this.chosen);
    pen.lineWidth = 2;
    pen.strokeStyle = "#000";
    pen.strokeRect(x - 5, y - 5, width + 10, height + 10);
    pen.strokeStyle = "#fff";
    pen.strokeRect(x - 4, y - 4, width + 8, height + 8);
  }

  drawPlace(pen, place, colour) {
    if (!place) return;
    const clock = Math.floor(place.x / PIXELS_A_CLOCK);
    const [x, y] = this.toCanvas(place.x, place.line);
    const [cell] = this.toCanvas(clock * PIXELS_A_CLOCK, place.line);
    pen.fillStyle = colour;
    pen.globalAlpha = 0.35;
    pen.fillRect(RULER_LEFT, y, this.canvas.clientWidth, 1);
    pen.fillRect(cell, RULER_TOP, 1, this.canvas.clientHeight);
    pen.globalAlpha = 1;
    pen.lineWidth = 1;
    pen.strokeStyle = "#000";
    pen.strokeRect(x - 1.5, y - 1.5, this.zoom + 3, TALL * this.zoom + 3);
    pen.strokeStyle = colour;
    pen.strokeRect(x - 0.5, y - 0.5, this.zoom + 1, TALL * this.zoom + 1);
  }

  drawRulers(pen) {
    const { clientWidth: width, clientHeight: height } = this.canvas;
    pen.fillStyle = "#0d0f13";
    pen.fillRect(0, 0, width, RULER_TOP);
    pen.fillRect(0, 0, RULER_LEFT, height);
    pen.font = '10px "DejaVu Sans Mono", ui-monospace, Menlo, Consolas, monospace';
    pen.textBaseline = "middle";
    const region = this.region();
    pen.textAlign = "right";
    const lines = stepOf(TALL * this.zoom, 18);
    for (let line = Math.ceil(region.line / lines) * lines; line < region.line + region.height; line += lines) {
      this.drawTick(pen, String(line), RULER_LEFT - 7, this.toCanvas(0, line)[1] + this.zoom, false);
    }
    pen.textAlign = "center";
    const clocks = stepOf(PIXELS_A_CLOCK * this.zoom, 34);
    const first = region.x / PIXELS_A_CLOCK;
    const end = first + region.width / PIXELS_A_CLOCK;
    for (let clock = Math.ceil(first / clocks) * clocks; clock < end; clock += clocks) {
      const middle = this.toCanvas(clock * PIXELS_A_CLOCK, 0)[0] + 2 * this.zoom;
      this.drawTick(pen, String(clock), middle, RULER_TOP / 2, true);
    }
    this.drawBeamLabels(pen, this.hover || this.cursor);
  }

  /** A label of a ruler and its stroke; none where the pointer's own label stands. */
  drawTick(pen, text, x, y, across) {
    if (across ? x < RULER_LEFT : y < RULER_TOP) return;
    const own = this.labelPlace(this.hover || this.cursor);
    pen.fillStyle = "#3a404b";
    if (across) pen.fillRect(x, RULER_TOP - 4, 1, 4);
    else pen.fillRect(RULER_LEFT - 4, y, 4, 1);
    pen.fillStyle = "#8b93a1";
    if (own && (across ? Math.abs(x - own[0]) < 27 : Math.abs(y - own[1]) < 14)) return;
    pen.fillText(text, x, y);
  }

  /** The middles of the labels of a place, along the upper and the left ruler. */
  labelPlace(place) {
    if (!place) return null;
    const clock = Math.floor(place.x / PIXELS_A_CLOCK);
    const [x, y] = this.toCanvas(clock * PIXELS_A_CLOCK, place.line);
    return [x + (PIXELS_A_CLOCK / 2) * this.zoom, y + this.zoom];
  }

  drawBeamLabels(pen, place) {
    if (!place) return;
    const [x, y] = this.labelPlace(place);
    const clock = Math.floor(place.x / PIXELS_A_CLOCK);
    pen.fillStyle = "#6cb2ff";
    if (y > RULER_TOP) pen.fillRect(0, y - 8, RULER_LEFT - 2, 16);
    if (x > RULER_LEFT) pen.fillRect(x - 15, 1, 30, RULER_TOP - 3);
    pen.fillStyle = "#06121f";
    pen.textAlign = "right";
    if (y > RULER_TOP) pen.fillText(String(place.line), RULER_LEFT - 7, y + 0.5);
    pen.textAlign = "center";
    if (x > RULER_LEFT) pen.fillText(String(clock), x, RULER_TOP / 2);
  }

  /** The mark that is nearest to a place on the canvas and in reach of it; -1 where there is none. */
  markAt(left, top) {
    if (!this.marksShown || left < RULER_LEFT || top < RULER_TOP) return -1;
    const width = PIXELS_A_CLOCK * this.zoom, height = TALL * this.zoom;
    let best = -1, least = MARK_REACH + 0.01;
    for (const at of this.marks) {
      if (!this.inRegion(at)) continue;
      const [x, y] = this.markPlace(at);
      const across = Math.max(x - left, left - x - width, 0), down = Math.max(y - top, top - y - height, 0);
      const far = Math.hypot(across, down);
      if (far < least) {
        least = far;
        best = at;
      }
    }
    return best;
  }

  listen() {
    const canvas = this.canvas;
    canvas.addEventListener("pointerdown", (event) => this.press(event));
    canvas.addEventListener("pointermove", (event) => this.move(event));
    canvas.addEventListener("pointerup", (event) => this.release(event));
    canvas.addEventListener("pointerleave", () => this.leave());
    canvas.addEventListener("wheel", (event) => this.wheel(event), { passive: false });
  }

  press(event) {
    if (event.button !== 0) return;
    this.pressed = { x: event.clientX, y: event.clientY, left: this.viewport.scrollLeft, top: this.viewport.scrollTop };
    this.dragged = false;
    this.canvas.setPointerCapture(event.pointerId);
  }

  move(event) {
    this.pointer = { left: event.offsetX, top: event.offsetY, clientX: event.clientX, clientY: event.clientY };
    if (this.pressed) {
      const across = event.clientX - this.pressed.x, down = event.clientY - this.pressed.y;
      if (!this.dragged && Math.hypot(across, down) < DRAG_BEGINS) return;
      this.dragged = true;
      this.canvas.classList.add("dragged");
      this.viewport.scrollLeft = this.pressed.left - across;
      this.viewport.scrollTop = this.pressed.top - down;
      return;
    }
    this.pointAgain();
    this.redraw();
  }

  /** Tells what stands under the mouse, which has not moved where the picture has. */
  pointAgain() {
    if (!this.pointer) return;
    const { left, top } = this.pointer;
    this.hover = this.fromCanvas(left, top);
    this.whenPointed(this.hover, this.markAt(left, top), this.pointer);
  }

  release(event) {
    if (!this.pressed) return;
    this.pressed = null;
    this.canvas.classList.remove("dragged");
    if (this.dragged) return;
    const place = this.fromCanvas(event.offsetX, event.offsetY);
    if (place) this.whenClicked(place, this.markAt(event.offsetX, event.offsetY));
  }

  leave() {
    this.hover = this.pointer = null;
    this.whenPointed(null, -1, null);
    this.redraw();
  }

  wheel(event) {
    if (!event.ctrlKey && !event.metaKey) return;
    event.preventDefault();
    this.zoomBy(event.deltaY < 0 ? 1 : -1, event.offsetX, event.offsetY);
  }
}
