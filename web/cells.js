// What stands in the cells of the visible layer, kept beside `Layers` as instructions are played: a buffer is read
// once after it was painted, and a copy of it is then known; a copy of the visible layer over itself moves rows. What
// is drawn in another way is read from its pixels. A cell is a number; those whose pixels are alike are equal.

import { BOX, CELL_HEIGHT, CELL_WIDTH, LEFT, RIGHT, seenAt } from './font.js';
import { indexOf } from './palette.js';

/** A cell that shows no picture of the font, or has a colour past the 256th. */
export const PICTURE = -1;
const UNREAD = -2;

/** The number of a cell. Its face is below 2^14. @returns {number} */
export function cellOf(face, ink, paper, isUnderlined) {
  return (face << 17) | (isUnderlined ? 1 << 16 : 0) | (ink << 8) | paper;
}

/** The face of a cell, a code point, BOX, LEFT or RIGHT. */
export const faceOf = (cell) => cell >> 17;
/** The indices of its colours, and whether it is underlined. */
export const inkOf = (cell) => (cell >> 8) & 0xff;
export const paperOf = (cell) => cell & 0xff;
export const isUnderlined = (cell) => (cell & 0x10000) !== 0;

/** A blank cell of a screen at its start. */
export const BLANK = cellOf(0x20, 0, 0, false);

function characterOf(cell) {
  if (cell === PICTURE) return '\u2592';
  const face = faceOf(cell);
  if (face === BOX || face === LEFT) return '\ufffd';
  return face === RIGHT ? ' ' : String.fromCharCode(face);
}

/** The characters of cells as `look` writes them, without the blanks at their end: the box is U+FFFD, a character that
 *  takes two cells U+FFFD and a blank, and a picture U+2592. @param {Int32Array} cells */
export function textOf(cells) {
  let text = '';
  for (const cell of cells) text += characterOf(cell);
  return text.replace(/ +$/, '');
}

function readAt(pixels, at, width) {
  const seen = seenAt(pixels, at, width);
  if (seen === null) return PICTURE;
  const [ink, paper] = [indexOf(seen.ink), indexOf(seen.paper)];
  return ink < 0 || paper < 0 ? PICTURE : cellOf(seen.face, ink, paper, seen.isUnderlined);
}

/** The cells of a picture, read from its pixels. */
export function cellsOf(pixels, width, height) {
  const [columns, rows] = [Math.floor(width / CELL_WIDTH), Math.floor(height / CELL_HEIGHT)];
  return Int32Array.from({ length: columns * rows }, (_, k) => readAt(pixels, Math.floor(k / columns) * CELL_HEIGHT * width + (k % columns) * CELL_WIDTH, width));
}

/** The cells of a screen that gets another size: those that both sizes have stay, and no other is known. */
export function refitted(cells, from, columns, rows) {
  const fitted = new Int32Array(columns * rows).fill(UNREAD);
  for (let y = 0; y < rows && y * from < cells.length; y++) fitted.set(cells.subarray(y * from, y * from + Math.min(from, columns)), y * columns);
  return fitted;
}

/** The cells of the visible layer. It watches a `Layers`, which is given to it as `layers`. */
export class Cells {
  columns = 0;
  rows = 0;
  cells = new Int32Array(0);
  /** @type {import('./layers.js').Layers | undefined} */
  layers;
  // The cell that a buffer shows whole, by its layer.
  #buffers = new Map();
  #hasUnread = false;
  // What was there at the sync before, by which a screen that was drawn anew is known.
  #before = new Int32Array(0);
  #hasMoved = false;
  // A whole picture comes in the place of frames, which aren't kept for ever.
  #isWhole = false;
  #isCut = false;
  /** @type {(Int32Array | null)[]} */
  #gone = [];
  #dirty = nowhere();

  // The watcher's part: each is told before the pixels change.

  sized(layer, width, height) {
    this.#buffers.delete(layer);
    if (layer !== this.layers.visible) return;
    this.#isWhole = true;
    this.#dirty = { left: 0, top: 0, right: width, bottom: height };
    this.#refit(Math.floor(width / CELL_WIDTH), Math.floor(height / CELL_HEIGHT));
  }

  filled(layer) {
    this.#buffers.delete(layer);
    if (layer !== this.layers.visible) return;
    for (const { x, y, width, height } of layer.path) this.#forget(x, y, width, height);
  }

  copied(from, x, y, width, height, to, toX, toY) {
    const { visible } = this.layers;
    if (to !== visible) this.#buffers.delete(to);
    else if (from === visible) this.#move(x, y, width, height, toX, toY);
    else if (x === 0 && y === 0 && width === CELL_WIDTH && height === CELL_HEIGHT && this.#isCell(toX, toY)) this.#put(this.#shownBy(from), toX, toY);
    else this.#forget(toX, toY, width, height);
  }

  /** At a sync: reads what isn't known yet, and sees whether lines went by that nobody was shown. */
  settle() {
    this.#read();
    const isMissing = this.#isWhole ? this.#isCut || this.#isOther() : !this.#hasMoved && this.#isAnew();
    if (isMissing) this.#gone.push(null);
    this.#before.set(this.cells);
    this.#hasMoved = false;
    this.#isWhole = false;
    this.#isCut = false;
  }

  /** The lines that have left the screen at its top since the last call, and null where lines may be missing. */
  takeGone() {
    const gone = this.#gone;
    this.#gone = [];
    return gone;
  }

  /** The rectangle of pixels that may have changed since the last call. */
  takeDirty() {
    const { left, top, right, bottom } = this.#dirty;
    this.#dirty = nowhere();
    return { x: left, y: top, width: Math.max(right - left, 0), height: Math.max(bottom - top, 0) };
  }

  /** The cells of a row. */
  row(y) {
    return this.cells.subarray(y * this.columns, (y + 1) * this.columns);
  }

  #isCell(x, y) {
    return x % CELL_WIDTH === 0 && y % CELL_HEIGHT === 0 && x < this.columns * CELL_WIDTH && y < this.rows * CELL_HEIGHT;
  }

  #shownBy(buffer) {
    let cell = this.#buffers.get(buffer);
    if (cell === undefined) {
      const isWhole = buffer.width >= CELL_WIDTH && buffer.height >= CELL_HEIGHT;
      this.#buffers.set(buffer, cell = isWhole ? readAt(buffer.pixels, 0, buffer.width) : UNREAD);
    }
    // Clear pixels of a picture leave what is there, so the cell itself has to be looked at.
    return cell === PICTURE ? UNREAD : cell;
  }

  #put(cell, x, y) {
    this.#touch(x, y, CELL_WIDTH, CELL_HEIGHT);
    this.cells[(y / CELL_HEIGHT) * this.columns + x / CELL_WIDTH] = cell;
    if (cell === UNREAD) this.#hasUnread = true;
  }

  #touch(x, y, width, height) {
    const dirty = this.#dirty;
    const { visible } = this.layers;
    dirty.left = Math.min(dirty.left, x);
    dirty.top = Math.min(dirty.top, y);
    dirty.right = Math.max(dirty.right, Math.min(x + width, visible.width));
    dirty.bottom = Math.max(dirty.bottom, Math.min(y + height, visible.height));
  }

  #forget(x, y, width, height) {
    this.#touch(x, y, width, height);
    this.#hasUnread = true;
    const right = Math.min(Math.ceil((x + width) / CELL_WIDTH), this.columns);
    const bottom = Math.min(Math.ceil((y + height) / CELL_HEIGHT), this.rows);
    const left = Math.floor(x / CELL_WIDTH);
    for (let row = Math.floor(y / CELL_HEIGHT); row < bottom && left < right; row++) this.cells.fill(UNREAD, row * this.columns + left, row * this.columns + right);
  }

  // Rows that go up from the top to the bottom of the screen leave it; of any other copy the cells are read anew.
  #move(x, y, width, height, toX, toY) {
    const { visible } = this.layers;
    const isWhole = x === 0 && toX === 0 && toY === 0 && width === visible.width && y % CELL_HEIGHT === 0 && y + height === visible.height;
    if (!isWhole || y === 0 || this.columns === 0) return this.#forget(toX, toY, width, height);
    this.#read();
    const lines = y / CELL_HEIGHT;
    for (let row = 0; row < lines; row++) this.#gone.push(this.row(row).slice());
    this.cells.copyWithin(0, lines * this.columns);
    this.#hasMoved = true;
    this.#touch(0, 0, width, height);
  }

  // Of another size the screen keeps the cells that both sizes have, as their pixels stay. Rows with characters may be
  // cut off below.
  #refit(columns, rows) {
    if (columns === this.columns && rows === this.rows) return;
    if (this.#before.subarray(rows * this.columns).some((cell) => faceOf(cell) !== 0x20)) this.#isCut = true;
    this.#before = refitted(this.#before, this.columns, columns, rows);
    Object.assign(this, { columns, rows, cells: refitted(this.cells, this.columns, columns, rows) });
    this.#hasUnread = true;
  }

  #read() {
    if (!this.#hasUnread) return;
    this.#hasUnread = false;
    const { pixels, width } = this.layers.visible;
    this.cells.forEach((cell, k) => {
      if (cell !== UNREAD) return;
      const [x, y] = [k % this.columns, Math.floor(k / this.columns)];
      this.cells[k] = readAt(pixels, y * CELL_HEIGHT * width + x * CELL_WIDTH, width);
    });
  }

  // Whether a character is another one than it was at the sync before.
  #isOther() {
    return this.cells.some((cell, k) => this.#before[k] !== UNREAD && faceOf(cell) !== faceOf(this.#before[k]));
  }

  // Whether every row that has a character, before or now, is another one, and some had one: then so many lines may
  // have gone by that none of them was moved.
  #isAnew() {
    const { columns, cells } = this;
    let had = 0;
    for (let y = 0; y < this.rows; y++) {
      let [isSame, isBlank, wasBlank] = [true, true, true];
      for (let k = y * columns; k < (y + 1) * columns; k++) {
        if (cells[k] !== this.#before[k]) isSame = false;
        if (faceOf(cells[k]) !== 0x20) isBlank = false;
        if (faceOf(this.#before[k]) !== 0x20) wasBlank = false;
      }
      if (isSame && !isBlank) return false;
      if (!wasBlank) had++;
    }
    return had > 1;
  }
}

const nowhere = () => ({ left: Infinity, top: Infinity, right: 0, bottom: 0 });
