// The page of a run: its parts, and what the controls and keys do.

const AHEAD = 3;
const ARROWS = { ArrowLeft: [-1, 0], ArrowRight: [1, 0], ArrowUp: [0, -1], ArrowDown: [0, 1] };
const LINES_A_LEAP = 8;
// browsers refuse an address that is changed too often
const ADDRESS_DELAY = 100;

class Look {
  constructor(data, trace) {
    this.data = data;
    this.trace = trace;
    this.system = data.system;
    this.index = 0;
    this.playing = false;
    this.chosen = -1;
    this.markedLine = -1;
    this.keepAddress = onceIn(ADDRESS_DELAY, () => this.writeAddress());
    this.frames = new Frames(data.frames, data.system.height, (index) => index === this.index && this.showFrame());
    this.buildPicture();
    const choose = (at) => this.choose(at, true);
    this.list = new List(byId("list"), byId("list-space"), (row, at) => this.drawRow(row, at), choose);
    this.reading = new Reading(trace, data.system, data.inputs, choose);
    this.filter = new Filter(data.registers, data.system.lines, () => this.applyFilter());
    this.slotView = data.slots ? new SlotView(this, data.slots) : null;
    this.tip = element("div", "tip");
    this.tip.hidden = true;
    document.body.append(this.tip);
    this.listen();
    this.begin();
  }

  buildPicture() {
    const style = getComputedStyle(document.documentElement);
    const colours = GROUPS.map((group) => style.getPropertyValue(group.colour).trim());
    const parts = { canvas: byId("picture"), viewport: byId("viewport"), spacer: byId("spacer") };
    this.picture = new Picture(parts, this.system, this.trace, colours);
    this.picture.whenPointed = (place, mark, event) => this.point(mark, event);
    this.picture.whenClicked = (place, mark) => this.clickAt(place, mark);
    this.picture.whenZoomed = (zoom, fitted) => {
      byId("zoom-label").textContent = (fitted ? zoom.toFixed(2).replace(/\.?0+$/, "") : zoom) + "\u00d7";
      byId("fit").setAttribute("aria-pressed", String(fitted));
      this.slotView?.whenZoomed(zoom, fitted);
      this.keepAddress();
    };
  }

  begin() {
    const data = this.data;
    byId("notes").textContent = [lacking(), ...data.notes].filter(Boolean).join(" ");
    byId("frame-slider").max = data.frames.length - 1;
    for (const id of ["frame-slider", "play"]) byId(id).disabled = data.frames.length === 1;
    for (const row of Object.values(data.registers)) byId("register-names").append(new Option(row[1], row[0]));
    this.picture.fit();
    this.goToFrame(0);
    this.showDetail(-1);
    this.followAddress();
  }

  /** The number of the frame that is shown, in the frames file. */
  get frame() {
    return this.data.frames[this.index].number;
  }

  // frames

  goToFrame(index) {
    const last = this.data.frames.length - 1;
    this.index = Math.min(last, Math.max(0, index));
    byId("frame-slider").value = this.index;
    byId("frame-slider").setAttribute("aria-valuetext", "frame " + this.frame);
    byId("frame-label").textContent = `frame ${this.frame} of ${this.data.total}`;
    byId("previous").disabled = this.index === 0;
    byId("next").disabled = this.index === last;
    this.markedLine = -1;
    this.picture.frameNumber = this.frame;
    this.showFrame();
    this.applyFilter();
    this.showCounts();
    this.slotView?.showFrame();
    this.keepAddress();
  }

  showFrame() {
    const image = this.frames.pixels(this.index);
    for (let ahead = 1; ahead <= AHEAD; ahead++) this.frames.decode(this.index + ahead);
    // while it plays, the frame before stands until this one is there
    if (!image && this.playing && this.picture.image) return;
    this.image = image;
    this.picture.setFrame(image, this.data.frames[this.index].rows);
    this.showReading();
  }

  setPlaying(playing) {
    this.playing = playing && this.data.frames.length > 1;
    const button = byId("play"), word = this.playing ? "Stop" : "Play";
    button.textContent = word;
    button.setAttribute("aria-label", word);
    button.setAttribute("aria-pressed", String(this.playing));
    if (!this.playing) return;
    const begun = performance.now(), from = this.index;
    const step = (now) => {
      if (!this.playing) return;
      const passed = Math.max(0, Math.floor(((now - begun) * FRAMES_A_SECOND) / 1000));
      const index = (from + passed) % this.data.frames.length;
      if (index !== this.index) this.goToFrame(index);
      requestAnimationFrame(step);
    };
    requestAnimationFrame(step);
  }

  // the filter

  /** The indexes of the trace lines of the frame: from the first up to the second. */
  frameRange() {
    return [this.trace.indexOf(this.frame, 0, 0), this.trace.indexOf(this.frame + 1, 0, 0)];
  }

  showCounts() {
    const counts = GROUPS.map(() => 0);
    const [from, to] = this.frameRange();
    for (let at = from; at < to; at++) counts[this.trace.group(at)]++;
    this.filter.showCounts(counts);
  }

  applyFilter() {
    const passes = this.filter.test(this.trace), one = this.filter.thisFrame;
    const [from, to] = this.frameRange();
    this.picture.marks = filtered(from, to, passes);
    const items = one ? this.picture.marks : filtered(0, this.trace.count, passes);
    const whole = one ? to - from : this.trace.count, where = one ? ` in frame ${this.frame}` : "";
    const part = items.length === whole ? "" : ` of ${counted(whole)}`;
    byId("shown-count").textContent = `${counted(items.length)}${part} lines${where}`;
    byId("trace-panel").classList.toggle("one-frame", one);
    this.list.setItems(items, whole ? "No line passes the filter." : `No line${where}.`);
    this.picture.pointAgain();
    this.picture.redraw();
  }

  // the list

  drawRow(row, at) {
    const trace = this.trace, interrupt = trace.kind[at] === INTERRUPT, chosen = at === this.chosen;
    const onLine = trace.frame[at] === this.frame && trace.line[at] === this.markedLine;
    row.classList.toggle("chosen", chosen);
    row.classList.toggle("on-line", !chosen && onLine);
    row.setAttribute("aria-selected", String(chosen));
    const numbers = [trace.frame[at], trace.line[at], trace.clock[at]];
    const word = element("span", "", interrupt ? "" : hex(trace.word[at], 4));
    const by = interrupt ? "interrupt" : SOURCE_NAMES[trace.source[at]], says = (trace.kind[at] === READ ? "read: " : "") + trace.meaning(at, true);
    if (isColour(trace.register[at])) word.append(dotOf(trace.word[at]));
    row.replaceChildren(
      ...numbers.map((number) => element("span", "", String(number))),
      signOf(trace.group(at)),
      element("span", "by", by),
      element("span", "", interrupt ? "level " + trace.word[at] : trace.name(trace.register[at])),
      word,
      element("span", "says", says),
    );
    row.title = `${by}: ${says}`;
  }

  /** Chooses a trace line: its row, its mark and its words; with `go` the picture shows its place too. */
  choose(at, go) {
    this.chosen = at;
    this.picture.chosen = at;
    if (go && at >= 0) this.goToLine(at);
    this.showDetail(at);
    const position = at < 0 ? -1 : this.list.positionOf(at);
    if (position >= 0) this.list.reveal(position);
    byId("list").setAttribute("aria-activedescendant", position >= 0 ? "list-" + position : "");
    this.list.redraw();
    this.picture.redraw();
  }

  /** Goes to the frame and the place of a trace line, where the page has its frame. */
  goToLine(at) {
    this.goToPlace(this.trace.frame[at], this.trace.line[at], this.trace.clock[at] * PIXELS_A_CLOCK);
  }

  /** Goes to a position of a line of a frame, where the page has that. */
  goToPlace(frame, line, x) {
    const index = this.data.frames.findIndex((one) => one.number === frame);
    if (index < 0) return;
    if (index !== this.index) this.goToFrame(index);
    this.picture.cursor = { x, line };
    this.picture.reveal(x, line);
    this.showReading();
    this.keepAddress();
  }

  showDetail(at) {
    const box = byId("detail"), trace = this.trace;
    if (at < 0) {
      box.textContent = "Click a mark, a line of the picture or a line of the list.";
      return;
    }
    const interrupt = trace.kind[at] === INTERRUPT, register = trace.register[at];
    const name = interrupt ? `Interrupt of level ${trace.word[at]}` : trace.name(register);
    const said = new Set([trace.purposeOf(register), trace.meaning(at)].filter(Boolean));
    const number = `line ${counted(trace.number[at])} of the trace: `;
    const raw = element("span", "mono", trace.text(at));
    box.replaceChildren(element("b", "", name), ` ${[...said].join(". ")}.`, element("br"), number, raw);
  }

  // the pointer

  showReading() {
    const place = this.picture.hover || this.picture.cursor;
    this.reading.show(this.frame, this.image, place);
    this.slotView?.showPlace(place, this.reading.colour);
  }

  /** Shows what is at a place: the trace line of a mark, or the trace of that line of the picture. */
  clickAt(place, mark) {
    this.picture.cursor = place;
    this.picture.canvas.focus({ preventScroll: true });
    this.markedLine = place.line;
    if (mark >= 0) this.choose(mark, false);
    else this.showLine(place.line);
    this.showReading();
    if (mark >= 0) this.slotView?.tabs.show("trace");
    else this.slotView?.showClicked(place);
    this.keepAddress();
  }

  /** Shows the trace of a line of the picture: its rows are marked, and the first stands near the top. */
  showLine(line) {
    const from = this.list.positionFrom(this.trace.indexOf(this.frame, line, 0));
    const to = this.list.positionFrom(this.trace.indexOf(this.frame, line + 1, 0));
    this.choose(-1, false);
    this.list.reveal(from, 2, true);
    const count = to - from;
    const said = count ? `${count} line${count === 1 ? "" : "s"} of the trace.` : "no line of the trace that is shown.";
    byId("detail").textContent = `Line ${line}: ${said}`;
  }

  point(mark, event) {
    this.showReading();
    this.tip.hidden = mark < 0;
    if (mark < 0) return;
    this.tip.textContent = this.trace.sentence(mark);
    this.tip.style.left = Math.max(8, Math.min(event.clientX + 14, innerWidth - this.tip.offsetWidth - 8)) + "px";
    this.tip.style.top = event.clientY + 18 + "px";
  }

  // controls

  listen() {
    const click = (id, act) => byId(id).addEventListener("click", act);
    const change = (id, act) => byId(id).addEventListener("change", (event) => act(event.target.checked));
    click("previous", () => this.goToFrame(this.index - 1));
    click("next", () => this.goToFrame(this.index + 1));
    click("play", () => this.setPlaying(!this.playing));
    click("fit", () => this.picture.fit());
    click("zoom-in", () => this.picture.zoomBy(1));
    click("zoom-out", () => this.picture.zoomBy(-1));
    click("help-button", () => byId("help").showModal());
    change("this-frame", () => this.changeReach());
    change("marks", (shown) => this.picture.show({ marksShown: shown }));
    change("blanking", (shown) => {
      this.picture.show({ blanking: shown });
      this.slotView?.show({ blanking: shown });
    });
    byId("frame-slider").addEventListener("input", (event) => this.goToFrame(Number(event.target.value)));
    document.addEventListener("keydown", (event) => this.press(event));
    window.addEventListener("hashchange", () => this.followAddress());
  }

  /** After a change between the lines of this frame and all: what was looked at stays in view. */
  changeReach() {
    this.applyFilter();
    const at = this.chosen >= 0 ? this.chosen : this.frameRange()[0];
    this.list.reveal(this.list.positionFrom(at), 3, true);
  }

  // keys

  press(event) {
    if (event.ctrlKey || event.metaKey || event.altKey || byId("help").open) return;
    const typing = event.target.matches("input[type=search], select");
    if (event.key === "Escape") this.escape(event.target);
    else if (event.key === "Enter" && event.target.matches("input[type=search]")) this.list.box.focus();
    else if (typing) return;
    else if (!this.pressInPart(event) && !this.pressAnywhere(event.target, event.key)) return;
    event.preventDefault();
  }

  /** Clears filter and cursor; a field that had the keys gives them back. */
  escape(target) {
    if (target.matches("input, select, button")) target.blur();
    this.filter.clear();
    this.picture.cursor = null;
    this.markedLine = -1;
    this.slotView?.blits.choose(-1);
    this.choose(-1, false);
    this.showReading();
    this.keepAddress();
  }

  /** Keys of the picture or the list, where one has the focus; whether there was one. */
  pressInPart(event) {
    if (event.target === this.picture.canvas) return this.pressInPicture(event);
    if (event.target === this.list.box && this.list.items.length) return this.pressInList(event);
    return this.slotView?.press(event) ?? false;
  }

  pressInPicture(event) {
    const arrow = ARROWS[event.key];
    const leap = event.shiftKey ? [PIXELS_A_CLOCK, LINES_A_LEAP] : [1, 1];
    if (arrow) this.moveCursor(arrow[0] * leap[0], arrow[1] * leap[1]);
    else if (event.key === "Enter" && this.picture.cursor) this.clickAtCursor();
    else return false;
    return true;
  }

  pressInList(event) {
    const down = this.list.stepOf(event.key);
    if (down) this.moveChosen(down);
    else if (event.key === "Enter" && this.chosen >= 0) this.choose(this.chosen, true);
    else return false;
    return true;
  }

  moveCursor(across, down) {
    const system = this.system;
    const from = this.picture.cursor || { x: FIRST_CLOCK * PIXELS_A_CLOCK, line: system.firstLine };
    const within = (value, end) => Math.min(end - 1, Math.max(0, value));
    const place = {
      x: within(from.x + across, system.clocks * PIXELS_A_CLOCK),
      line: within(from.line + down, system.lines),
    };
    this.picture.cursor = place;
    this.picture.leave();
    this.picture.reveal(place.x, place.line);
    this.picture.redraw();
    this.showReading();
    this.keepAddress();
    byId("spoken").textContent = `line and clock ${byId("beam").textContent}, colour ${byId("colour").textContent}`;
  }

  clickAtCursor() {
    const { x, line } = this.picture.cursor, trace = this.trace;
    const clock = Math.floor(x / PIXELS_A_CLOCK);
    const mark = this.picture.marks.find((at) => trace.line[at] === line && trace.clock[at] === clock);
    this.clickAt(this.picture.cursor, mark ?? -1);
  }

  /** Chooses the line `step` rows further; where the chosen one is not in the list, from where it would be. */
  moveChosen(step) {
    const items = this.list.items, position = this.list.positionOf(this.chosen);
    const from = position >= 0 ? position : this.list.positionFrom(this.chosen) - (step > 0 ? 1 : 0);
    const at = items[this.list.positionBelow(from, step)];
    this.choose(at, this.trace.frame[at] === this.frame);
  }

  /** Keys that hold everywhere; whether there was one. */
  pressAnywhere(target, key) {
    if (target.matches("input[type=range]") && key in ARROWS) return false;
    if (key === " " && target.matches("button, input[type=checkbox]")) return false;
    const acts = {
      ",": () => this.goToFrame(this.index - 1),
      ".": () => this.goToFrame(this.index + 1),
      Home: () => this.goToFrame(0),
      End: () => this.goToFrame(this.data.frames.length - 1),
      " ": () => this.setPlaying(!this.playing),
      "+": () => this.picture.zoomBy(1),
      "-": () => this.picture.zoomBy(-1),
      0: () => this.picture.fit(),
      m: () => byId("marks").click(),
      b: () => byId("blanking").click(),
      s: () => this.slotView?.nextMode(),
      "/": () => this.focusFilter(),
      "?": () => byId("help").showModal(),
    };
    const same = { PageUp: ",", ArrowLeft: ",", PageDown: ".", ArrowRight: ".", "=": "+" };
    const act = acts[same[key] || key] ?? this.panelKey(key);
    if (act) act();
    return Boolean(act);
  }

  /** What a key does that shows a panel. */
  panelKey(key) {
    const name = this.slotView?.tabs.names[Number(key) - 1];
    return name && (() => this.slotView.tabs.show(name));
  }

  focusFilter() {
    this.slotView?.tabs.show("trace");
    byId("filter-register").focus();
  }

  /** Lets the page's address name what is shown, so that it is there again after a reload. */
  writeAddress() {
    const { cursor, fitted, zoom } = this.picture, view = this.slotView;
    const named = new URLSearchParams({ frame: this.frame });
    if (cursor) named.set("line", cursor.line);
    if (cursor) named.set("column", cursor.x - FIRST_CLOCK * PIXELS_A_CLOCK);
    if (!fitted) named.set("zoom", zoom);
    if (view && view.tabs.shown !== "trace") named.set("tab", view.tabs.shown);
    if (view && view.mode !== "off") named.set("map", view.mode);
    history.replaceState(null, "", "#" + named);
  }

  /** Shows what the page's address names. */
  followAddress() {
    const named = new URLSearchParams(location.hash.slice(1)), view = this.slotView;
    const [frame, line, column, zoom] = ["frame", "line", "column", "zoom"].map((name) => Number(named.get(name) ?? NaN));
    if (view?.tabs.names.includes(named.get("tab"))) view.tabs.show(named.get("tab"));
    if (view && MAP_MODES.includes(named.get("map"))) view.setMode(named.get("map"));
    if (zoom > 0) this.picture.zoomTo(zoom);
    const index = this.data.frames.findIndex((one) => one.number === frame);
    if (index < 0) return;
    if (index !== this.index) this.goToFrame(index);
    const place = { x: column + FIRST_CLOCK * PIXELS_A_CLOCK, line };
    const end = this.system.clocks * PIXELS_A_CLOCK;
    if (!(place.x >= 0 && place.x < end && line >= 0 && line < this.system.lines)) return;
    this.picture.cursor = place;
    this.markedLine = line;
    requestAnimationFrame(() => {
      this.picture.reveal(place.x, line);
      this.showLine(line);
      this.showReading();
    });
  }
}

/** A small square of a colour. */
function dotOf(word) {
  const dot = element("i", "dot");
  dot.style.background = cssColour(word);
  return dot;
}

const data = JSON.parse(byId("data").textContent);
const trace = new Trace(byId("earlier").textContent, byId("trace").textContent, data.firstLine, data.registers);
const look = new Look(data, trace);
