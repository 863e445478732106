// Sharp text: the cells of the screen, drawn with a font of the browser at the device's own pixels. Each picture of a
// cell is made once, and then copied to where it stands; only cells that have changed are drawn. Lines and blocks have
// the gateway's pixels, as large as a cell is, so that they join.

import { BOX, CELL_HEIGHT, CELL_WIDTH, LEFT, RIGHT, barsOf, hasBars } from './font.js';
import { PICTURE, faceOf, inkOf, isUnderlined, paperOf } from './cells.js';
import { inkColour, paperColour, pixelOf } from './palette.js';

/** The fonts that text is drawn with. */
export const FAMILY = 'ui-monospace, Menlo, Consolas, "DejaVu Sans Mono", "Liberation Mono", monospace';

/** The advance of a character, as a part of the font's size. */
export function advance() {
  const context = document.createElement('canvas').getContext('2d');
  context.font = `100px ${FAMILY}`;
  return context.measureText('M').width / 100;
}

/**
 * The size of a cell in pixels of the device, and that of the font, whose advance is the cell's width.
 * @typedef {{ width: number, height: number, font: number }} Cell
 */

// From one line of a text to the next, as a part of the font's size.
const [LEAST_LINE, MOST_LINE] = [1.17, 1.3];
const MOST_SIDE = 16000;
const LEAST_WIDTH = 2;
const MOST = { columns: 512, rows: 256 };

/**
 * The cell of a screen that fits into a room. Where a font's size is wanted, the cell has that size, whether it fits or
 * not. All lengths are in pixels of the device. @returns {Cell}
 */
export function cellFor({ columns, rows, room, wanted, ratio }) {
  const most = Math.max(LEAST_WIDTH, Math.floor(MOST_SIDE / Math.max(columns, 2 * rows)));
  const wide = wanted ? Math.round(wanted * ratio) : Math.floor(Math.min(room.width / columns, (room.height / rows / LEAST_LINE) * ratio));
  const width = Math.min(Math.max(wide, LEAST_WIDTH), most);
  const font = width / ratio;
  const high = wanted ? font * MOST_LINE : Math.min(room.height / rows, font * MOST_LINE);
  return { width, height: Math.max(Math.floor(high), Math.ceil(font)), font };
}

/** How many columns and rows a room has, of cells that are so large, within what a session may have.
 *  @param {{ width: number, height: number }} room @param {{ width: number, height: number }} cell
 *  @param {import('./follow.js').Size} least */
export function sizeFor(room, cell, least) {
  const count = (length, side, fewest, most) => Math.min(Math.max(Math.floor(length / side), fewest), most);
  return { columns: count(room.width, cell.width, least.columns, MOST.columns), rows: count(room.height, cell.height, least.rows, MOST.rows) };
}

/** A canvas that shows cells as sharp text. */
export class Sharp {
  #canvas;
  #context;
  #pen;
  #columns = 0;
  /** @type {Cell} */
  #cell = { width: 0, height: 0, font: 0 };
  #baseline = 0;
  #image = new ImageData(1, 1);
  #pixels = new Uint32Array(1);
  // What is shown in each cell, and the pictures of cells, which are as large as cells.
  #shown = new Int32Array(0);
  #faces = new Map();
  #tiles = new Map();
  #mostTiles = 0;

  constructor(canvas) {
    this.#canvas = canvas;
    this.#context = canvas.getContext('2d', { alpha: false });
    this.#pen = document.createElement('canvas').getContext('2d', { willReadFrequently: true });
  }

  /** Sets the size of the screen and of its cells. Nothing is shown until `show`. */
  fit(columns, rows, cell) {
    const [width, height] = [columns * cell.width, rows * cell.height];
    Object.assign(this.#canvas, { width, height });
    this.#columns = columns;
    this.#cell = cell;
    this.#image = new ImageData(width, height);
    this.#pixels = new Uint32Array(this.#image.data.buffer);
    this.#shown = new Int32Array(columns * rows).fill(-2);
    this.#faces.clear();
    this.#tiles.clear();
    this.#mostTiles = Math.ceil(2 ** 22 / (cell.width * cell.height));
    Object.assign(this.#pen.canvas, { width: cell.width, height: cell.height });
    this.#pen.font = `${cell.font}px ${FAMILY}`;
    const { fontBoundingBoxAscent: above, fontBoundingBoxDescent: below } = this.#pen.measureText('M');
    this.#baseline = Math.round((cell.height - above - below) / 2 + above);
    this.#pen.fillStyle = this.#pen.strokeStyle = '#fff';
  }

  /** Shows nothing, until `fit` and `show`. */
  clear() {
    this.#context.clearRect(0, 0, this.#canvas.width, this.#canvas.height);
  }

  /**
   * Shows cells, as many as `fit` told. `pictureAt` gives the pixels of the cell of a column and a row.
   * @param {Int32Array} cells @param {(x: number, y: number) => Uint32Array} pictureAt
   */
  show(cells, pictureAt) {
    const [columns, shown] = [this.#columns, this.#shown];
    const rows = cells.length / columns;
    /** @type {[y: number, left: number, right: number][]} */
    const changed = [];
    const tiles = Array(columns).fill(null);
    for (let y = 0, k = 0; y < rows; y++) {
      let [left, right] = [columns, 0];
      for (let x = 0; x < columns; x++, k++) {
        const cell = cells[k];
        tiles[x] = null;
        if (cell === shown[k] && cell !== PICTURE) continue;
        tiles[x] = cell === PICTURE ? this.#enlarged(pictureAt(x, y)) : this.#tiles.get(cell) ?? this.#made(cell);
        if (x < left) left = x;
        right = x + 1;
      }
      if (right > 0) {
        this.#place(tiles, y, left, right);
        changed.push([y, left, right]);
      }
    }
    shown.set(cells);
    this.#paint(changed);
  }

  // One paint where most changed, else one a row.
  #paint(changed) {
    const { width, height } = this.#cell;
    const put = (top, bottom, left, right) => this.#context.putImageData(this.#image, 0, 0, left * width, top * height, (right - left) * width, (bottom - top) * height);
    if (changed.length < 8) changed.forEach(([y, left, right]) => put(y, y + 1, left, right));
    else put(changed[0][0], changed[changed.length - 1][0] + 1, Math.min(...changed.map((it) => it[1])), Math.max(...changed.map((it) => it[2])));
  }

  // Places the pictures of a part of a row, pixel line by pixel line, as they lie in memory.
  #place(tiles, y, left, right) {
    const [pixels, width, height] = [this.#pixels, this.#cell.width, this.#cell.height];
    for (let line = 0; line < height; line++) {
      let to = ((y * height + line) * this.#columns + left) * width;
      for (let x = left; x < right; x++) {
        const tile = tiles[x];
        if (tile === null) { to += width; continue; }
        let from = line * width;
        const end = from + width;
        for (; from + 4 <= end; from += 4, to += 4) {
          pixels[to] = tile[from];
          pixels[to + 1] = tile[from + 1];
          pixels[to + 2] = tile[from + 2];
          pixels[to + 3] = tile[from + 3];
        }
        for (; from < end; from++, to++) pixels[to] = tile[from];
      }
    }
  }

  #made(cell) {
    if (this.#tiles.size >= this.#mostTiles) this.#tiles.clear();
    const tile = this.#drawn(cell);
    this.#tiles.set(cell, tile);
    return tile;
  }

  #drawn(cell) {
    const paper = paperColour(paperOf(cell));
    // Lines and blocks are shown as they are drawn, in their own colours.
    const ink = hasBars(faceOf(cell)) ? paperColour(inkOf(cell)) : inkColour(inkOf(cell), paperOf(cell));
    const strength = this.#face(faceOf(cell));
    const tile = Uint32Array.from(strength, (part) => pixelOf(/** @type {any} */ (paper.map((it, k) => Math.round(it + ((ink[k] - it) * part) / 255)))));
    if (isUnderlined(cell)) {
      const { width, height, font } = this.#cell;
      const thick = Math.max(1, Math.round(font / 15));
      const top = Math.min(height - thick, this.#baseline + Math.max(1, Math.round(font / 9)));
      tile.fill(pixelOf(ink), top * width, (top + thick) * width);
    }
    return tile;
  }

  // How much of each pixel of a cell a face covers, 0 to 255.
  #face(face) {
    let strength = this.#faces.get(face);
    if (strength !== undefined) return strength;
    strength = hasBars(face) ? barred(face, this.#cell.width, this.#cell.height) : this.#penned(face);
    this.#faces.set(face, strength);
    return strength;
  }

  #penned(face) {
    const { width, height } = this.#cell;
    this.#pen.clearRect(0, 0, width, height);
    if (face === BOX || face === LEFT || face === RIGHT) this.#strokeBox(face);
    else if (face < 0x80) this.#pen.fillText(String.fromCharCode(face), 0, this.#baseline);
    // What the font hasn't comes from another one, whose characters may be wider.
    else this.#pen.fillText(String.fromCharCode(face), 0, this.#baseline, width);
    return this.#pen.getImageData(0, 0, width, height).data.filter((_, k) => k % 4 === 3);
  }

  // The box, or its half, which goes on in the next cell.
  #strokeBox(face) {
    const { width, font } = this.#cell;
    const thick = this.#pen.lineWidth = Math.max(1, Math.round(font / 14));
    const [side, top] = [Math.ceil(width / 8) + thick / 2, this.#baseline - Math.round(font * 0.7) + thick / 2];
    const left = face === RIGHT ? -width : side;
    const right = face === LEFT ? 2 * width : width - side;
    this.#pen.strokeRect(left, top, right - left, this.#baseline - top - thick / 2);
  }

  // A picture of a cell, pixel by pixel, as large as the cells here.
  #enlarged(picture) {
    const { width, height } = this.#cell;
    const at = (k, x) => Math.floor(((k - x) / width / height) * CELL_HEIGHT) * CELL_WIDTH + Math.floor((x / width) * CELL_WIDTH);
    return Uint32Array.from({ length: width * height }, (_, k) => picture[at(k, k % width)]);
  }
}

/**
 * How much of each pixel of a cell a face of bars covers, 0 or 255. A bar ends where the next one would begin, so that what
 * meets in the gateway's pixels meets here. But one of a single pixel, as those of double lines, is as thick wherever it
 * begins, and seen in small cells too.
 */
export function barred(face, width, height) {
  const strength = new Uint32Array(width * height);
  for (const [x, y, wide, high] of barsOf(face)) {
    const [left, right] = span(x, wide, CELL_WIDTH, width);
    const [top, bottom] = span(y, high, CELL_HEIGHT, height);
    for (let line = top; line < bottom; line++) strength.fill(255, line * width + left, line * width + right);
  }
  return strength;
}

// From where to where what begins at a part of a cell, and takes so many of its parts, goes in a cell of this length.
function span(at, size, parts, length) {
  const edge = (part) => Math.ceil((part * length) / parts);
  const start = Math.min(edge(at), length - 1);
  const thick = Math.max(1, size === 1 ? Math.round(length / parts) : edge(at + size) - start);
  return [start, Math.min(start + thick, length)];
}
