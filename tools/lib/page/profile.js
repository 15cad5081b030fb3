// How many clocks of a frame each function of a program has.

/** Gathers the clocks frame by frame: each counts for the function from which the processor has read last. */
class Profile {
  /** `functions` has for each word of memory the number of its function, or -1. */
  constructor(functions) {
    Object.assign(this, { functions, current: -1, frames: new Map() });
  }

  /** Goes on by the next frame. */
  take(frame, slots) {
    const rows = new Map();
    const rowOf = (number) => rows.get(number) ?? rows.set(number, { clocks: 0, reads: 0 }).get(number);
    let before = 0;
    for (let at = 0; at < slots.count; at++) {
      const number = slots.codes[at] === PROCESSOR_READS ? this.functions[slots.addresses[at] >> 1] : -1;
      if (number < 0) continue;
      rowOf(this.current).clocks += at - before;
      rowOf(number).reads++;
      this.current = number;
      before = at;
    }
    rowOf(this.current).clocks += slots.count - before;
    this.frames.set(frame, rows);
  }

  /** The clocks and reads of each function in some frames, the most clocks first. */
  rows(frames) {
    const sums = new Map();
    for (const [number, { clocks, reads }] of frames.flatMap((frame) => [...(this.frames.get(frame) ?? [])])) {
      const sum = sums.get(number) ?? { number, clocks: 0, reads: 0 };
      sums.set(number, { number, clocks: sum.clocks + clocks, reads: sum.reads + reads });
    }
    return [...sums.values()].filter(({ clocks }) => clocks).sort((a, b) => b.clocks - a.clocks);
  }
}
