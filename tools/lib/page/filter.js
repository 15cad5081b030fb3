// The filter of the list and of the marks: by what a line counts as, by register, by line of the picture and by frame.

class Filter {
  /** `registers` is the table of registers, `lines` how many a field has; `whenChanged` is called after each change by the user. */
  constructor(registers, lines, whenChanged) {
    this.registers = registers;
    this.lines = lines;
    this.whenChanged = whenChanged;
    this.chips = GROUPS.map((group, at) => this.buildChip(at));
    byId("sources").append(...this.chips.map((chip) => chip.box.parentElement));
    for (const id of ["filter-register", "filter-line"]) byId(id).addEventListener("input", whenChanged);
    byId("clear-filter").addEventListener("click", () => this.clear());
  }

  buildChip(group) {
    const label = element("label", "chip"), box = element("input"), number = element("span", "number");
    box.type = "checkbox";
    box.checked = true;
    box.addEventListener("change", this.whenChanged);
    label.append(box, signOf(group), element("span", "", GROUPS[group].name), number);
    return { box, number };
  }

  /** The numbers on the chips: how many lines there are of each group. */
  showCounts(counts) {
    this.chips.forEach((chip, group) => (chip.number.textContent = counted(counts[group])));
  }

  get thisFrame() {
    return byId("this-frame").checked;
  }

  clear() {
    byId("filter-register").value = "";
    byId("filter-line").value = "";
    for (const chip of this.chips) chip.box.checked = true;
    this.whenChanged();
  }

  /** The registers that the text names, by offset, name or beginning of a name; null for all. */
  registersWanted() {
    const words = byId("filter-register").value.trim().toUpperCase().split(/[\s,]+/).filter(Boolean);
    if (!words.length) return null;
    const named = ([offset, row]) => words.some((word) => row[0].startsWith(word) || offset.toUpperCase() === word);
    return new Set(Object.entries(this.registers).filter(named).map(([offset]) => parseInt(offset, 16)));
  }

  /** The first and the last line of the picture that the text names; null for all, and where it names none. */
  linesWanted() {
    const match = /^\s*(\d+)\s*(?:-\s*(\d+)\s*)?$/.exec(byId("filter-line").value);
    const [first, last] = match ? [Number(match[1]), Number(match[2] ?? match[1])] : [0, -1];
    return first <= last && last < this.lines ? [first, last] : null;
  }

  /** Marks the texts that name nothing, and says which do and why. */
  showWrong(registers, lines) {
    const [register, line] = ["filter-register", "filter-line"].map((id) => byId(id).value.trim());
    const wrong = [
      registers?.size === 0 && `No register is '${register}'.`,
      !lines && line && `'${line}' is no line from 0 to ${this.lines - 1}, as 44, or range of them, as 44-60: it filters nothing.`,
    ];
    byId("filter-register").setAttribute("aria-invalid", String(Boolean(wrong[0])));
    byId("filter-line").setAttribute("aria-invalid", String(Boolean(wrong[1])));
    byId("filter-wrong").textContent = wrong.filter(Boolean).join(" ");
    byId("filter-wrong").hidden = !wrong.some(Boolean);
  }

  /** A test of a trace line's index by the filter as it stands; a text that names nothing is marked. */
  test(trace) {
    const groups = this.chips.map((chip) => chip.box.checked);
    const registers = this.registersWanted(), lines = this.linesWanted();
    this.showWrong(registers, lines);
    return (at) =>
      groups[trace.group(at)] &&
      (!registers || registers.has(trace.register[at])) &&
      (!lines || (trace.line[at] >= lines[0] && trace.line[at] <= lines[1]));
  }
}

/** The indexes from `from` up to `to` that pass a test. */
function filtered(from, to, passes) {
  const found = new Int32Array(Math.max(0, to - from));
  let count = 0;
  for (let at = from; at < to; at++) if (passes(at)) found[count++] = at;
  return found.subarray(0, count);
}

/** The sign of what a line counts as, as its mark in the picture has it. */
function signOf(group) {
  const sign = element("span", "sign " + GROUPS[group].sign);
  sign.style.setProperty("--sign", `var(${GROUPS[group].colour})`);
  return sign;
}
