// What the page shows of the slots: the map over the picture or beside it, and the panels that the tabs choose.

const MAP_MODES = ["off", "over", "beside"];
const CHART_HEIGHT = 64;

/** The panels on the right, of which a tab shows one. */
class Tabs {
  constructor(names, whenShown) {
    this.names = names;
    this.whenShown = whenShown;
    this.shown = "trace";
    for (const name of names) {
      const tab = byId("tab-" + name);
      tab.hidden = false;
      tab.addEventListener("click", () => this.show(name));
      tab.addEventListener("keydown", (event) => this.press(event));
    }
    byId("tabs").hidden = false;
    this.show("trace");
  }

  show(name) {
    this.shown = name;
    for (const other of this.names) {
      const tab = byId("tab-" + other);
      tab.setAttribute("aria-selected", String(other === name));
      tab.tabIndex = other === name ? 0 : -1;
      byId(other + "-panel").hidden = other !== name;
    }
    this.whenShown(name);
  }

  press(event) {
    const step = { ArrowLeft: -1, ArrowRight: 1 }[event.key];
    if (!step) return;
    const count = this.names.length, next = (this.names.indexOf(this.shown) + step + count) % count;
    this.show(this.names[next]);
    byId("tab-" + this.shown).focus();
    event.preventDefault();
    event.stopPropagation();
  }
}

class SlotView {
  constructor(look, data) {
    Object.assign(this, { look, data, mode: "off", place: null, colour: null });
    this.slots = new Slots(data, look.system, (frame) => frame === look.frame && this.showFrame());
    this.field = this.slots.field;
    this.map = new SlotMap(look.system, this.field);
    this.why = new Why(byId("why"), look.trace, (at) => this.goToWrite(at), (place) => this.goToSlot(place));
    this.blits = new BlitPanel(this.field, look.trace, (blit) => this.markBlit(blit), (at) => this.goToWrite(at));
    this.copper = new CopperPanel(look.trace, (beam) => this.goToSlot({ frame: look.frame, ...beam }));
    this.showWhy = onceBeforeDrawing(() => this.drawWhy());
    this.buildOwners();
    this.buildModes();
    this.buildChart();
    byId("slot-fact").hidden = false;
    byId("all-functions").addEventListener("change", () => this.showFunctions());
    const names = ["trace", "why", "slots", "blits", "copper", ...(data.symbols ? ["functions"] : [])];
    this.tabs = new Tabs(names, () => {
      this.showPanel();
      look.keepAddress();
    });
  }

  /** The slots of the frame that is shown; null where the log has none, or they are not unpacked yet. */
  get current() {
    return this.slots.frame(this.look.frame);
  }

  // the map

  buildOwners() {
    this.chips = OWNERS.map((owner, at) => {
      const label = element("label", "chip"), box = element("input"), sign = element("span", "sign"), number = element("span", "number");
      box.type = "checkbox";
      box.checked = true;
      sign.style.setProperty("--sign", `var(${owner.colour})`);
      box.addEventListener("change", () => {
        this.map.shown[at] = box.checked;
        this.paint();
      });
      label.append(box, sign, element("span", "", owner.name), number);
      return { label, number };
    });
    byId("owners").append(...this.chips.map((chip) => chip.label));
  }

  buildModes() {
    for (const mode of MAP_MODES) byId("map-" + mode).addEventListener("click", () => this.setMode(mode));
    byId("slot-bar").hidden = false;
  }

  setMode(mode) {
    this.mode = mode;
    for (const other of MAP_MODES) byId("map-" + other).setAttribute("aria-pressed", String(other === mode));
    byId("owners").hidden = mode === "off";
    byId("map-viewport").hidden = mode !== "beside";
    this.map.over = mode === "over";
    this.look.picture.overlay = this.map.over ? this.map : null;
    if (mode === "beside" && !this.beside) this.buildBeside();
    this.look.picture.resize();
    this.paint();
    this.look.keepAddress();
  }

  nextMode() {
    this.setMode(MAP_MODES[(MAP_MODES.indexOf(this.mode) + 1) % MAP_MODES.length]);
  }

  /** The second picture, which shows the map alone. Both have one zoom, one place and one pointer. */
  buildBeside() {
    const look = this.look, first = look.picture;
    const parts = { canvas: byId("map"), viewport: byId("map-viewport"), spacer: byId("map-spacer") };
    const second = new Picture(parts, look.system, look.trace, first.colours);
    Object.assign(second, { marksShown: false, blanking: first.blanking, ground: this.map });
    second.whenClicked = (place) => look.clickAt(place, -1);
    second.whenPointed = (place) => {
      first.hover = place;
      first.redraw();
      look.showReading();
    };
    second.whenZoomed = (zoom, fitted) => this.zoomAlike(first, zoom, fitted);
    this.beside = second;
    second.fit();
    this.scrollAlike(first.viewport, second.viewport);
    this.scrollAlike(second.viewport, first.viewport);
  }

  zoomAlike(picture, zoom, fitted) {
    if (!fitted) picture.zoomTo(zoom);
    else if (!picture.fitted) picture.fit();
  }

  scrollAlike(from, to) {
    from.addEventListener("scroll", () => to.scrollTo(from.scrollLeft, from.scrollTop));
  }

  /** Does to the second picture what was done to the first. */
  whenZoomed(zoom, fitted) {
    if (this.mode === "beside" && this.beside) this.zoomAlike(this.beside, zoom, fitted);
  }

  show(choices) {
    this.beside?.show(choices);
  }

  paint() {
    this.map.paint(this.current);
    this.redrawMaps();
  }

  markBlit(blit) {
    this.map.marked = blit ? this.blits.range(blit) : [0, 0];
    if (blit && this.mode === "off") this.setMode("over");
    this.redrawMaps();
  }

  // frames and places

  showFrame() {
    const slots = this.current;
    const has = this.slots.has(this.look.frame), shares = has ? this.slots.shares(this.look.frame) : OWNERS.map(() => 0);
    const all = has ? this.slots.clocks(this.look.frame) : 0;
    this.chips.forEach(({ label, number }, at) => {
      label.hidden = !shares[at];
      number.textContent = percent(shares[at], all);
    });
    if (slots || !has) this.paint();
    this.showPanel();
    this.showPlace(this.place, this.colour);
    for (let ahead = 1; ahead <= AHEAD; ahead++) this.slots.frame(this.look.frame + ahead);
  }

  /** Shows whose the clock of a place is, and why its pixel is so; `colour` is the frame's, or null. */
  showPlace(place, colour) {
    Object.assign(this, { place, colour });
    const slots = this.current, clock = place ? place.x >> 2 : 0;
    const known = slots && place && slots.has(place.line, clock);
    byId("slot").replaceChildren(...(known ? this.slotParts(slots, this.field.indexOf(place.line, clock)) : [NOTHING]));
    byId("slot").title = byId("slot").textContent.trim();
    if (this.beside) {
      this.beside.hover = this.look.picture.hover;
      this.beside.cursor = this.look.picture.cursor;
      this.beside.redraw();
    }
    this.showWhy();
  }

  slotParts(slots, index) {
    const text = slotSentence(slots, index, this.look.trace, (address) => this.slots.functionAt(address));
    return [signOfOwner(OWNERS[OWNER_OF[slots.codes[index]]]), " ", text];
  }

  /** After a click on a place: the Copper's list goes to what ran there, that of blits to the one that ran then; else why its pixel is so is shown. */
  showClicked(place) {
    const slots = this.current, shown = this.tabs.shown;
    if (shown !== "copper" && shown !== "blits") this.tabs.show("why");
    if (!slots || !slots.has(place.line, place.x >> 2)) return;
    if (shown === "copper") this.copper.reveal(place);
    if (shown === "blits") this.blits.chooseAt(this.field.indexOf(place.line, place.x >> 2));
  }

  /** Keys in the lists of blits and of the Copper's instructions; whether there was one. */
  press(event) {
    const panel = [this.blits, this.copper].find((one) => one.list.box === event.target);
    const step = panel?.list.items.length ? panel.list.stepOf(event.key) : 0;
    if (step) panel.move(step);
    return Boolean(step);
  }

  drawWhy() {
    const shown = this.tabs.shown === "why";
    if (shown) this.why.show(this.current, this.look.frame, this.place, this.colour);
    this.map.sources = shown ? this.why.sources : [];
    this.redrawMaps();
  }

  redrawMaps() {
    this.look.picture.redraw();
    this.beside?.redraw();
  }

  goToWrite(at) {
    this.tabs.show("trace");
    this.look.choose(at, true);
  }

  /** Goes to a clock, or to a pixel where its position is given. */
  goToSlot({ frame, line, clock, position = clock * PIXELS_A_CLOCK }) {
    this.look.goToPlace(frame, line, position);
  }

  // panels

  showPanel() {
    const shown = this.tabs?.shown;
    if (shown === "slots") this.showShares();
    if (shown === "blits") this.showBlits();
    if (shown === "copper") this.showCopper();
    if (shown === "functions") this.showFunctions();
    this.showWhy();
  }

  /** Goes through all frames of the log, once, for the panels of what goes on from frame to frame. */
  async readAll() {
    if (this.asked) return;
    this.asked = true;
    const slots = this.slots, numbers = slots.numbers;
    const blits = new BlitLog(this.field, this.look.trace, numbers[0]), profile = new Profile(slots.functions);
    for (const number of numbers) {
      const frame = await slots.read(number);
      blits.take(number, frame);
      profile.take(number, frame);
    }
    this.blits.blits = blits.all;
    this.profile = profile;
    this.showPanel();
  }

  showBlits() {
    this.readAll();
    const frame = this.look.frame;
    this.blits.show(frame, this.slots.has(frame) ? this.slots.clocks(frame) : 0);
  }

  showCopper() {
    const slots = this.current;
    if (!slots && this.slots.has(this.look.frame)) return;
    this.copper.show(slots, this.look.frame);
    this.copper.reveal(this.place);
  }

  showShares() {
    const frame = this.look.frame, body = byId("shares");
    const has = this.slots.has(frame);
    byId("shares-title").textContent = has ? `Frame ${frame}` : `The log has no slots of frame ${frame}`;
    this.drawChart();
    if (!has) {
      body.replaceChildren();
      return;
    }
    const shares = this.slots.shares(frame), all = this.slots.clocks(frame);
    const rows = OWNERS.map((owner, at) => shareRow(signOfOwner(owner), owner.name, [counted(shares[at])], shares[at], all, owner.colour));
    const total = shareRow("", "All", [counted(all)], all, all, "");
    body.replaceChildren(...rows, total);
  }

  buildChart() {
    const chart = byId("chart");
    chart.addEventListener("click", (event) => {
      const at = Math.floor((event.offsetX / chart.clientWidth) * this.look.data.frames.length);
      this.look.goToFrame(at);
    });
    new ResizeObserver(() => this.drawChart()).observe(chart);
  }

  /** The shares of all frames of the page, a column each; the frame that is shown has a line below it. */
  drawChart() {
    const chart = byId("chart"), pen = chart.getContext("2d"), scale = window.devicePixelRatio || 1;
    const width = chart.clientWidth, frames = this.look.data.frames, column = width / frames.length;
    chart.width = Math.round(width * scale);
    chart.height = Math.round((CHART_HEIGHT + 5) * scale);
    pen.setTransform(scale, 0, 0, scale, 0, 0);
    const style = getComputedStyle(document.documentElement);
    frames.forEach(({ number }, at) => this.drawColumn(pen, style, number, at * column, Math.max(1, column - (column > 4 ? 1 : 0))));
    pen.fillStyle = style.getPropertyValue("--accent");
    pen.fillRect(this.look.index * column, CHART_HEIGHT + 2, Math.max(2, column - 1), 3);
  }

  drawColumn(pen, style, frame, x, width) {
    if (!this.slots.has(frame)) return;
    const shares = this.slots.shares(frame), all = this.slots.clocks(frame);
    let bottom = CHART_HEIGHT;
    for (let owner = OWNERS.length - 1; owner > FREE; owner--) {
      const height = (CHART_HEIGHT * shares[owner]) / all;
      pen.fillStyle = style.getPropertyValue(OWNERS[owner].colour);
      pen.fillRect(x, bottom - height, width, height);
      bottom -= height;
    }
    pen.fillStyle = style.getPropertyValue("--slot-free");
    pen.fillRect(x, 0, width, bottom);
  }

  showFunctions() {
    this.readAll();
    const all = byId("all-functions").checked, { names, unknown } = this.data.symbols;
    byId("functions-title").textContent = !this.profile ? READING_LOG : all ? "All frames of the page" : `Frame ${this.look.frame}`;
    const found = this.profile?.rows(all ? this.slots.numbers : [this.look.frame]) ?? [];
    const whole = found.reduce((sum, { clocks }) => sum + clocks, 0);
    const rows = found.map(({ number, clocks, reads }) =>
      shareRow("", names[number] ?? unknown, [counted(clocks), counted(reads)], clocks, whole, "--processor"),
    );
    byId("functions").replaceChildren(...rows);
  }
}

function percent(part, all) {
  return all ? ((100 * part) / all).toFixed(1) + " %" : "";
}

function signOfOwner(owner) {
  const sign = element("span", "sign");
  sign.style.setProperty("--sign", `var(${owner.colour})`);
  return sign;
}

/** A row of a table of shares: a sign, a name, counts, per cent and a bar. */
function shareRow(sign, name, counts, part, all, colour) {
  const row = element("tr"), head = element("th"), bar = element("td", "bar-of"), filled = element("i");
  head.scope = "row";
  head.append(sign, " ", name);
  filled.style.width = (100 * part) / Math.max(1, all) + "%";
  filled.style.background = colour ? `var(${colour})` : "none";
  bar.append(filled);
  row.append(head, ...[...counts, percent(part, all)].map((text) => element("td", "", text)), bar);
  return row;
}
