// The drawing machine: layers of pixels that `size`, `rect`, `cfill` and `copy` draw on. It is exact and knows of
// no canvas, so it can be tried without a browser. A pixel is a 32-bit number, alpha, blue, green and red from the
// highest byte down, as the memory of a canvas has them; 0 is a clear pixel.

import { Unreadable } from './instructions.js';

const VISIBLE = 0;
const LEAST_LAYER = -1024;
const MOST_SIDE = 4096;
const SOURCE_OVER = 14;

/** A layer: its size, its pixels row by row, and its path. */
export class Layer {
  width = 0;
  height = 0;
  pixels = new Uint32Array(0);
  /** @type {{ x: number, y: number, width: number, height: number }[]} */
  path = [];
  isFilled = false;

  // The common part stays, and all other pixels are clear.
  resize(width, height) {
    const pixels = new Uint32Array(width * height);
    const columns = Math.min(width, this.width);
    for (let y = 0; y < Math.min(height, this.height); y++) {
      pixels.set(this.pixels.subarray(y * this.width, y * this.width + columns), y * width);
    }
    Object.assign(this, { width, height, pixels });
  }

  // A rectangle behind a fill begins a new path.
  add(x, y, width, height) {
    if (this.isFilled) this.path = [];
    this.isFilled = false;
    this.path.push({ x, y, width, height });
  }

  // Parts outside the layer are dropped.
  fill(pixel) {
    for (const { x, y, width, height } of this.path) {
      const right = Math.min(x + width, this.width);
      const bottom = Math.min(y + height, this.height);
      for (let row = y; row < bottom && x < right; row++) this.pixels.fill(pixel, row * this.width + x, row * this.width + right);
    }
    this.isFilled = true;
  }

  // The pixels of a rectangle, those outside the layer clear.
  taken(x, y, width, height) {
    const pixels = new Uint32Array(width * height);
    const right = Math.min(x + width, this.width);
    const bottom = Math.min(y + height, this.height);
    for (let row = y; row < bottom && x < right; row++) {
      pixels.set(this.pixels.subarray(row * this.width + x, row * this.width + right), (row - y) * width);
    }
    return pixels;
  }

  // Clear pixels leave what is there.
  put(pixels, x, y, width) {
    const columns = Math.min(width, this.width - x);
    const rows = Math.min(width ? pixels.length / width : 0, this.height - y);
    for (let row = 0; row < rows; row++) {
      const from = row * width;
      const to = (y + row) * this.width + x;
      const line = pixels.subarray(from, from + Math.max(columns, 0));
      if (line.includes(0)) line.forEach((pixel, column) => { if (pixel !== 0) this.pixels[to + column] = pixel; });
      else this.pixels.set(line, to);
    }
  }
}

const number = (text, most) => {
  const value = Number(text);
  if (!/^[0-9]{1,20}$/.test(text ?? '') || value > most) throw new Unreadable(`not a number: ${text}`);
  return value;
};

const PLACE = 2 ** 32 - 1;

/**
 * What is told of each change before it is made.
 * @typedef {object} Watcher
 * @property {(layer: Layer, width: number, height: number) => void} sized  it gets this size
 * @property {(layer: Layer) => void} filled  the path of the layer is
 * @property {(from: Layer, x: number, y: number, width: number, height: number, to: Layer, toX: number, toY: number) => void} copied
 */

/** All layers of a view. */
export class Layers {
  /** @type {Map<number, Layer>} */
  #layers = new Map();
  #watcher;

  /** @param {Watcher | null} watcher */
  constructor(watcher = null) {
    this.#watcher = watcher;
  }

  /** The visible layer's width, height and pixels. */
  get visible() {
    return this.#layer('0');
  }

  #layer(text) {
    if (!/^(0|-[1-9][0-9]{0,3})$/.test(text ?? '') || Number(text) < LEAST_LAYER) throw new Unreadable(`not a layer: ${text}`);
    const index = Number(text) || VISIBLE;
    let layer = this.#layers.get(index);
    if (layer === undefined) this.#layers.set(index, layer = new Layer());
    return layer;
  }

  #mask(text) {
    if (number(text, 255) !== SOURCE_OVER) throw new Unreadable(`a mask of ${text}`);
  }

  /** Draws an instruction, and answers whether it is one that draws. */
  draw([opcode, ...given]) {
    switch (opcode) {
      case 'size': {
        const [name, width, height] = given;
        const layer = this.#layer(name);
        const size = [number(width, MOST_SIDE), number(height, MOST_SIDE)];
        this.#watcher?.sized(layer, size[0], size[1]);
        layer.resize(size[0], size[1]);
        return true;
      }
      case 'rect': {
        const [layer, ...places] = given;
        const [x, y, width, height] = [0, 1, 2, 3].map((k) => number(places[k], PLACE));
        this.#layer(layer).add(x, y, width, height);
        return true;
      }
      case 'cfill': {
        const [mask, name, ...colour] = given;
        this.#mask(mask);
        const [red, green, blue, alpha] = [0, 1, 2, 3].map((k) => number(colour[k], 255));
        if (alpha !== 255) throw new Unreadable(`an alpha of ${alpha}`);
        const layer = this.#layer(name);
        this.#watcher?.filled(layer);
        layer.fill(((alpha << 24) | (blue << 16) | (green << 8) | red) >>> 0);
        return true;
      }
      case 'copy': {
        const [source, x, y, width, height, mask, destination, toX, toY] = given;
        this.#mask(mask);
        const [from, to] = [this.#layer(source), this.#layer(destination)];
        const [left, top, columns, rows] = [number(x, PLACE), number(y, PLACE), number(width, MOST_SIDE), number(height, MOST_SIDE)];
        const [toLeft, toTop] = [number(toX, PLACE), number(toY, PLACE)];
        this.#watcher?.copied(from, left, top, columns, rows, to, toLeft, toTop);
        // All pixels are read before one is written, so a layer can be copied over itself.
        to.put(from.taken(left, top, columns, rows), toLeft, toTop, columns);
        return true;
      }
      default:
        return false;
    }
  }
}
