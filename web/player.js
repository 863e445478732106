// A player of recordings: the text of instructions is read once, from its beginning, and any of its syncs is shown
// from the picture that was kept before it. It knows of no canvas, so it can be tried without a browser.

import { Unreadable, instructionsFrom } from './instructions.js';
import { Layers } from './layers.js';

/** A picture is kept every so many characters of the recording, or sooner, where drawing took long. */
const KEPT_EVERY = 2 * 1024 * 1024;
/** How long drawing from a kept picture may take, in milliseconds, as long as few are kept. */
const KEPT_AFTER = 30;
const MOST_KEPT = 512;
/** How long a part of the reading takes, in milliseconds, before whoever shows it has a turn. */
const PART = 25;

// Pixels in a quarter of the room, where they have few colours, as those of a terminal do.
function packed(pixels) {
  const numbers = new Map();
  const places = new Uint8Array(pixels.length);
  let last = 0;
  let number = 0;
  for (let at = 0; at < pixels.length; at++) {
    if (pixels[at] !== last || at === 0) {
      last = pixels[at];
      number = numbers.get(last) ?? numbers.size;
      if (number === 256) return { pixels: pixels.slice() };
      numbers.set(last, number);
    }
    places[at] = number;
  }
  return { colours: Uint32Array.from(numbers.keys()), places };
}

// Puts packed pixels into others.
function unpack({ pixels, colours, places }, into) {
  if (pixels) into.set(pixels);
  else for (let at = 0; at < places.length; at++) into[at] = colours[places[at]];
}

/** A view whose picture can be kept: the layers, and what of each can't be read back from them. */
class View {
  #layers = new Layers();
  // Of each layer its size, its path and whether it was filled, by the layer's name.
  #shapes = new Map();

  get visible() {
    return this.#layers.visible;
  }

  #shape(name) {
    if (!this.#shapes.has(name)) this.#shapes.set(name, { width: 0, height: 0, path: [], isFilled: false });
    return this.#shapes.get(name);
  }

  draw(instruction) {
    if (!this.#layers.draw(instruction)) return;
    const [opcode, ...given] = instruction;
    if (opcode === 'size') Object.assign(this.#shape(given[0]), { width: Number(given[1]), height: Number(given[2]) });
    else if (opcode === 'rect') this.#add(this.#shape(given[0]), given.slice(1));
    else if (opcode === 'cfill') this.#shape(given[1]).isFilled = true;
  }

  #add(shape, rectangle) {
    if (shape.isFilled) shape.path = [];
    shape.isFilled = false;
    shape.path.push(rectangle);
  }

  /** A picture of all layers, from which `View.of` makes a view like this one. */
  picture() {
    const { width, height } = this.visible;
    const pixels = this.visible.pixels.slice();
    // The pixels of the other layers are read by way of the visible one.
    const layers = [...this.#shapes].map(([name, shape]) => {
      const kept = { ...shape, path: [...shape.path], name };
      if (name === '0') return { ...kept, packed: packed(pixels) };
      this.#clear(shape.width, shape.height);
      this.#layers.draw(['copy', name, 0, 0, shape.width, shape.height, 14, '0', 0, 0]);
      return { ...kept, packed: packed(this.visible.pixels) };
    });
    this.#clear(width, height);
    this.visible.pixels.set(pixels);
    return layers;
  }

  /** A view that a picture was kept of. */
  static of(picture) {
    const view = new View();
    // Paths come first, while no layer has a pixel that a fill would change.
    for (const { name, path, isFilled, width, height } of picture) {
      for (const rectangle of path) view.#layers.draw(['rect', name, ...rectangle]);
      if (isFilled) view.#layers.draw(['cfill', 14, name, 0, 0, 0, 255]);
      Object.assign(view.#shape(name), { width, height, path: [...path], isFilled });
    }
    for (const { name, width, height, packed } of picture) {
      if (name === '0') continue;
      view.#clear(width, height);
      unpack(packed, view.visible.pixels);
      view.#layers.draw(['size', name, width, height]);
      view.#layers.draw(['copy', '0', 0, 0, width, height, 14, name, 0, 0]);
    }
    const visible = picture.find(({ name }) => name === '0');
    if (visible) {
      view.#clear(visible.width, visible.height);
      unpack(visible.packed, view.visible.pixels);
    } else {
      view.#clear(0, 0);
    }
    return view;
  }

  // The visible layer with no pixels but clear ones.
  #clear(width, height) {
    this.#layers.draw(['size', '0', 0, 0]);
    this.#layers.draw(['size', '0', width, height]);
  }
}

function textOf(bytes) {
  try {
    return new TextDecoder('utf-8', { fatal: true, ignoreBOM: true }).decode(bytes);
  } catch {
    throw new Unreadable('no UTF-8');
  }
}

/** The moments of a recording, of the lines `MILLISECONDS BYTES` of a `.times` file, one a read. */
export function momentsOf(text) {
  let bytes = 0;
  return text.split('\n').filter((line) => line !== '').map((line) => {
    const found = /^([0-9]{1,15}) ([0-9]{1,15})$/.exec(line);
    if (found === null) throw new Unreadable(`no moment: ${line}`);
    bytes += Number(found[2]);
    return { moment: Number(found[1]), bytes };
  });
}

/** A recording that is played. Its syncs are known as far as it was read. */
export class Player {
  /** Where each sync ends, in characters, its stamp, and its moment, which is the stamp where no moments are given. */
  syncs = [];
  /** How many characters were read. */
  read = 0;
  /** Why the reading ended before the text did, where it did: an instruction that can't be read. */
  fault = null;
  #text;
  #moments;
  #nextMoment = 0;
  #bytes = 0;
  #isAscii;
  // The pictures that were kept, with the number of syncs before each.
  #kept = [{ count: 0, end: 0, picture: [] }];
  #spacing = 1;
  // What is shown, and how many syncs were played for it.
  #shown = new View();
  #count = 0;

  /** `bytes` is the recording, and `moments` what `momentsOf` gives of its times, or null. */
  constructor(bytes, moments = null) {
    this.#text = textOf(bytes);
    this.#isAscii = this.#text.length === bytes.length;
    this.#moments = moments;
  }

  /** How many characters the recording has. */
  get length() {
    return this.#text.length;
  }

  /** Whether the bar is by moments, and not by stamps. */
  get hasMoments() {
    return this.#moments !== null;
  }

  /** The visible layer's width, height and pixels at the sync that is shown. */
  get visible() {
    return this.#shown.visible;
  }

  /** The number of the sync that is shown, from 0, or -1 before the first. */
  get at() {
    return this.#count - 1;
  }

  /** Reads the recording to its end, or to what can't be read, and tells after each part how far it came. */
  async index(tell = () => {}) {
    const view = new View();
    let kept = 0;
    let spent = 0;
    let start = performance.now();
    try {
      for (const { instruction, end } of instructionsFrom(this.#text, 0)) {
        view.draw(instruction);
        this.read = end;
        if (instruction[0] !== 'sync') continue;
        this.#addSync(instruction[1], end);
        const now = performance.now();
        if (end - kept >= KEPT_EVERY * this.#spacing || spent + now - start > KEPT_AFTER * this.#spacing) {
          this.#keep(view, end);
          kept = end;
          spent = 0;
          start = performance.now();
        }
        if (now - start > PART) {
          spent += now - start;
          tell();
          await new Promise((resolve) => { setTimeout(resolve); });
          start = performance.now();
        }
      }
    } catch (fault) {
      if (!(fault instanceof Unreadable)) throw fault;
      this.fault = fault;
    }
    tell();
  }

  #addSync(stamp, end) {
    const sync = { end, stamp: Number(stamp), moment: Number(stamp) };
    if (this.#moments !== null) sync.moment = this.#momentOf(end);
    this.syncs.push(sync);
  }

  // The moment of the read that brought the last byte before a place. Places come in order.
  #momentOf(end) {
    const before = this.syncs.at(-1)?.end ?? 0;
    this.#bytes += this.#isAscii ? end - before : new TextEncoder().encode(this.#text.slice(before, end)).length;
    while (this.#nextMoment < this.#moments.length - 1 && this.#moments[this.#nextMoment].bytes < this.#bytes) this.#nextMoment++;
    return this.#moments[this.#nextMoment]?.moment ?? 0;
  }

  // Where there are many pictures, every second one goes, and those to come are further apart.
  #keep(view, end) {
    this.#kept.push({ count: this.syncs.length, end, picture: view.picture() });
    if (this.#kept.length <= MOST_KEPT) return;
    this.#kept = this.#kept.filter((_, place) => place % 2 === 0);
    this.#spacing *= 2;
  }

  /** The number of the last sync whose moment isn't above, or -1 where there is none. Moments rise. */
  find(moment) {
    let [least, most] = [0, this.syncs.length];
    while (least < most) {
      const middle = (least + most) >> 1;
      if (this.syncs[middle].moment <= moment) least = middle + 1;
      else most = middle;
    }
    return least - 1;
  }

  /** The number of the last sync whose stamp isn't above, or -1. */
  findStamp(stamp) {
    return this.syncs.filter((sync) => sync.stamp <= stamp).length - 1;
  }

  /** Shows the sync of this number: from the one that is shown, or the picture that was kept nearest before it. */
  seek(k) {
    const nearest = this.#kept.filter(({ count }) => count <= k + 1).at(-1);
    const goesOn = this.#count <= k + 1 && this.#count >= nearest.count;
    const from = goesOn ? this.syncs[this.#count - 1]?.end ?? 0 : nearest.end;
    if (!goesOn) {
      this.#shown = View.of(nearest.picture);
      this.#count = nearest.count;
    }
    const to = this.syncs[k].end;
    if (from < to) {
      for (const { instruction, end } of instructionsFrom(this.#text, from)) {
        this.#shown.draw(instruction);
        if (end === to) break;
      }
    }
    this.#count = k + 1;
  }
}
