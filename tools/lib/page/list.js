// A list of which only the rows in view are in the page, so that its length costs nothing.

const ROW_HEIGHT = 22;
// browsers draw nothing right that is much taller than this
const TALLEST = 8000000;

class List {
  /** `drawRow(element, item)` fills a row; `whenChosen(item)` is called when one is clicked or reached by a key. */
  constructor(box, space, drawRow, whenChosen) {
    this.box = box;
    this.space = space;
    this.drawRow = drawRow;
    this.whenChosen = whenChosen;
    this.items = [];
    this.pool = [];
    this.redraw = onceBeforeDrawing(() => this.draw());
    box.addEventListener("scroll", () => this.redraw());
    box.addEventListener("click", (event) => this.click(event));
    new ResizeObserver(() => this.redraw()).observe(box);
  }

  setItems(items, emptyText) {
    this.items = items;
    this.emptyText = emptyText;
    this.space.style.height = Math.min(items.length * ROW_HEIGHT, TALLEST) + "px";
    this.redraw();
  }

  get rowsInView() {
    return Math.max(1, Math.floor(this.box.clientHeight / ROW_HEIGHT) - 1);
  }

  /** How many rows a key goes down, or up where that is below 0; 0 for other keys. */
  stepOf(key) {
    const page = this.rowsInView;
    return { ArrowUp: -1, ArrowDown: 1, PageUp: -page, PageDown: page, Home: -Infinity, End: Infinity }[key] ?? 0;
  }

  /** The position so many rows below another, or above, that the list has. */
  positionBelow(position, step) {
    return Math.min(this.items.length - 1, Math.max(0, position + step));
  }

  /** How many pixels of rows one pixel of scrolling moves: 1, but for very long lists. */
  pace() {
    const view = this.box.clientHeight;
    const all = this.items.length * ROW_HEIGHT;
    return all <= TALLEST ? 1 : (all - view) / (TALLEST - view);
  }

  draw() {
    const scrolled = this.box.scrollTop, top = scrolled * this.pace();
    const first = Math.floor(top / ROW_HEIGHT);
    const rows = Math.ceil(this.box.clientHeight / ROW_HEIGHT) + 1;
    const end = Math.min(this.items.length, first + rows);
    for (let at = first; at < end; at++) {
      const row = this.rowElement(at - first);
      row.hidden = false;
      row.style.top = scrolled + at * ROW_HEIGHT - top + "px";
      row.dataset.at = at;
      row.id = `${this.box.id}-${at}`;
      row.setAttribute("aria-posinset", at + 1);
      row.setAttribute("aria-setsize", this.items.length);
      this.drawRow(row, this.items[at]);
    }
    for (let spare = Math.max(0, end - first); spare < this.pool.length; spare++) this.hide(this.pool[spare]);
    this.drawEmpty();
  }

  hide(row) {
    row.hidden = true;
    row.removeAttribute("id");
  }

  rowElement(number) {
    while (this.pool.length <= number) {
      const row = element("div", "row");
      row.setAttribute("role", "option");
      this.pool.push(row);
      this.box.append(row);
    }
    return this.pool[number];
  }

  drawEmpty() {
    if (!this.empty) {
      this.empty = element("p", "empty");
      this.box.append(this.empty);
    }
    this.empty.hidden = this.items.length > 0;
    this.empty.textContent = this.emptyText || "";
  }

  /** The position of an item among the rows; -1 where it is not shown. The items are in rising order. */
  positionOf(item) {
    const at = this.positionFrom(item);
    return at < this.items.length && this.items[at] === item ? at : -1;
  }

  /** The position of the first item that is not below `item`. */
  positionFrom(item) {
    let low = 0, high = this.items.length;
    while (low < high) {
      const middle = (low + high) >> 1;
      if (this.items[middle] < item) low = middle + 1;
      else high = middle;
    }
    return low;
  }

  /** Scrolls so that a position stands `rowsAbove` rows below the top; not at all where it is in view. */
  reveal(position, rowsAbove = 3, always = false) {
    const top = this.box.scrollTop * this.pace(), view = this.box.clientHeight;
    const place = position * ROW_HEIGHT;
    if (!always && place >= top && place + ROW_HEIGHT <= top + view) return;
    this.box.scrollTop = Math.max(0, place - rowsAbove * ROW_HEIGHT) / this.pace();
    this.redraw();
  }

  click(event) {
    const row = event.target.closest(".row:not([hidden])");
    if (row) this.whenChosen(this.items[Number(row.dataset.at)]);
  }
}
