// The characters of the screen, as text that lies over its picture: it can be selected, copied, found and read aloud,
// and is never seen. What is selected stays so while its characters stay: rows that go up take their element with
// them, and of a row that changes only the characters that differ are replaced.

import { textOf } from './cells.js';

/** A row of text. */
export function rowElement(text) {
  const row = document.createElement('div');
  row.className = 'line';
  row.append(text);
  return row;
}

/** Makes the text of a node another one, by replacing what stands between their common beginning and end. */
export function rewrite(node, text) {
  const old = node.data;
  const least = Math.min(old.length, text.length);
  let begin = 0;
  while (begin < least && old[begin] === text[begin]) begin++;
  let end = 0;
  while (end < least - begin && old[old.length - 1 - end] === text[text.length - 1 - end]) end++;
  node.replaceData(begin, old.length - end - begin, text.slice(begin, text.length - end));
}

/** The rows of text over a picture. */
export class TextLayer {
  #element;
  #shown = new Int32Array(0);
  #columns = 0;
  /** The text of each row. @type {string[]} */
  lines = [];

  constructor(element) {
    this.#element = element;
  }

  clear() {
    this.#refit(0, 0);
  }

  /** Shows the cells of a screen, of which so many lines have gone up since the last call. */
  show(cells, columns, gone) {
    if (gone > 0 && gone < this.lines.length) this.#rise(gone);
    if (columns !== this.#columns || cells.length !== this.#shown.length) this.#refit(cells.length / columns, columns);
    for (let y = 0; y < this.lines.length; y++) {
      const [from, to] = [y * columns, (y + 1) * columns];
      if (this.#isShown(cells, from, to)) continue;
      const text = textOf(cells.subarray(from, to));
      if (text === this.lines[y]) continue;
      rewrite(this.#element.children[y].firstChild, text);
      this.lines[y] = text;
    }
    this.#shown.set(cells);
  }

  #isShown(cells, from, to) {
    for (let k = from; k < to; k++) if (cells[k] !== this.#shown[k]) return false;
    return true;
  }

  // Rows that stay keep their elements, and so what is selected of them.
  #refit(rows, columns) {
    this.#columns = columns;
    this.#shown = new Int32Array(rows * columns).fill(-2);
    for (let y = this.lines.length; y < rows; y++) this.#element.append(rowElement(''));
    for (let y = this.lines.length; y > rows; y--) this.#element.lastElementChild.remove();
    this.lines = Array.from({ length: rows }, (_, y) => this.lines[y] ?? '');
  }

  #rise(gone) {
    for (const row of [...this.#element.children].slice(0, gone)) {
      rewrite(row.firstChild, '');
      this.#element.append(row);
    }
    this.lines = [...this.lines.slice(gone), ...Array(gone).fill('')];
    this.#shown.copyWithin(0, gone * this.#columns);
    this.#shown.fill(-2, (this.lines.length - gone) * this.#columns);
  }
}
