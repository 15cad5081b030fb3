// The geometry of a frame, and its pixels as the page holds them.

const WIDTH = 720;
const FIRST_CLOCK = 47;
const PIXELS_A_CLOCK = 4;
const FRAMES_A_SECOND = 50;
const MOST_DECODED = 64;

/** The bytes of base64 text. */
function bytesOf(base64) {
  const text = atob(base64);
  const bytes = new Uint8Array(text.length);
  for (let at = 0; at < text.length; at++) bytes[at] = text.charCodeAt(at);
  return bytes;
}

async function inflate(bytes) {
  const stream = new Blob([bytes]).stream().pipeThrough(new DecompressionStream("deflate"));
  return new Uint8Array(await new Response(stream).arrayBuffer());
}

/** The pixels of a frame as ImageData, of red, green and blue of each, which a page holds packed. */
async function pixelsOf(packed, height) {
  const bytes = await inflate(bytesOf(packed));
  const image = new ImageData(WIDTH, height);
  for (let from = 0, to = 0; from < bytes.length; from += 3, to += 4) {
    image.data[to] = bytes[from];
    image.data[to + 1] = bytes[from + 1];
    image.data[to + 2] = bytes[from + 2];
    image.data[to + 3] = 255;
  }
  return image;
}

/** The frames of a page, decoded when they are wanted; the MOST_DECODED that were wanted last are kept. */
class Frames {
  constructor(frames, height, whenReady) {
    this.frames = frames;
    this.height = height;
    this.whenReady = whenReady;
    this.decoded = new Map();
    this.coming = new Set();
  }

  /** The pixels of a frame; null while they are decoded, and whenReady is called with its index once they are there. */
  pixels(index) {
    const image = this.decoded.get(index);
    if (image) {
      this.decoded.delete(index);
      this.decoded.set(index, image);
      return image;
    }
    this.decode(index);
    return null;
  }

  async decode(index) {
    if (!(index in this.frames) || this.coming.has(index) || this.decoded.has(index)) return;
    this.coming.add(index);
    const image = await pixelsOf(this.frames[index].pixels, this.height);
    this.coming.delete(index);
    this.decoded.set(index, image);
    if (this.decoded.size > MOST_DECODED) this.decoded.delete(this.decoded.keys().next().value);
    this.whenReady(index);
  }
}

/** The twelve bits of the colour of a pixel; null where the frame has none there. */
function colourAt(image, column, row) {
  if (!image || column < 0 || row < 0 || column >= image.width || row >= image.height) return null;
  const at = 4 * (row * image.width + column);
  const data = image.data;
  if (data[at + 3] === 0) return null;
  return ((data[at] / 17) << 8) | ((data[at + 1] / 17) << 4) | (data[at + 2] / 17);
}

function hex(word, digits) {
  return word.toString(16).padStart(digits, "0");
}

/** A count, its thousands parted by commas. */
function counted(number) {
  return number.toLocaleString("en");
}

/** A count with its noun. */
function countOf(number, noun) {
  return `${counted(number)} ${noun}${number === 1 ? "" : "s"}`;
}

function cssColour(word) {
  return "#" + hex(word & 0xfff, 3);
}

function element(tag, className, text) {
  const made = document.createElement(tag);
  if (className) made.className = className;
  if (text !== undefined) made.textContent = text;
  return made;
}

/** A text that does something when it is clicked. */
function linkTo(text, act) {
  const made = element("button", "link", text);
  made.type = "button";
  made.addEventListener("click", act);
  return made;
}

/** A function that has `draw` called before the page is next drawn, once however often it is called until then. */
function onceBeforeDrawing(draw) {
  let asked = 0;
  return () => {
    asked ||= requestAnimationFrame(() => {
      asked = 0;
      draw();
    });
  };
}

/** A function that has `act` called so many milliseconds after it was called first, once however often it is called until then. */
function onceIn(delay, act) {
  let asked = 0;
  return () => {
    asked ||= setTimeout(() => {
      asked = 0;
      act();
    }, delay);
  };
}

function byId(id) {
  return document.getElementById(id);
}

/** What is wrong where the browser lacks what the page stands on; empty where nothing does. */
function lacking() {
  if (typeof DecompressionStream !== "undefined") return "";
  return "This browser is too old to show the frames: it lacks DecompressionStream.";
}
