// The lines that have left the screen at its top, as far as they were seen: text with its colours, above the screen.

import { faceOf, inkOf, isUnderlined, paperOf, textOf } from './cells.js';
import { cssOf, inkColour, paperColour } from './palette.js';
import { rowElement } from './textlayer.js';

/** How many lines stand in an element together, so that a new line moves few elements. */
const TOGETHER = 100;
const PLAIN_INK = 7;

// Where the look of the characters of a line changes: the ends of its runs of one look. A blank goes with any ink.
function* runsOf(cells, length) {
  let start = 0;
  for (let x = 1; x <= length; x++) {
    if (x < length && isAlike(cells[x - 1], cells[x])) continue;
    yield cells.subarray(start, x);
    start = x;
  }
}

const look = (cell) => cell & 0x1ffff;
const isAlike = (one, other) => look(one) === look(other) || (faceOf(other) === 0x20 && !isUnderlined(one) && !isUnderlined(other) && paperOf(one) === paperOf(other));

// The characters of a run, with the blanks at its end.
const charactersOf = (run) => textOf(run).padEnd(run.length);

/** A line of cells as an element with its colours. */
export function lineElement(cells) {
  let length = cells.length;
  while (length > 0 && faceOf(cells[length - 1]) === 0x20 && paperOf(cells[length - 1]) === 0 && !isUnderlined(cells[length - 1])) length--;
  const row = rowElement('');
  for (const run of runsOf(cells, length)) row.append(runElement(run));
  return row;
}

function runElement(run) {
  const cell = run[0];
  const [ink, paper] = cell < 0 ? [PLAIN_INK, 0] : [inkOf(cell), paperOf(cell)];
  if ((ink === PLAIN_INK || ink === paper) && paper === 0 && !isUnderlined(cell)) return charactersOf(run);
  const span = document.createElement('span');
  span.append(charactersOf(run));
  span.style.color = cssOf(inkColour(ink, paper));
  if (paper !== 0) span.style.backgroundColor = cssOf(paperColour(paper));
  if (cell >= 0 && isUnderlined(cell)) span.style.textDecoration = 'underline';
  return span;
}

/** The lines above a screen. */
export class Scrollback {
  #element;
  #count = 0;
  #isGap = false;
  #most = 0;

  constructor(element) {
    this.#element = element;
  }

  /** How many lines are kept, about: the first ones go by the hundred. */
  set most(lines) {
    this.#most = lines;
    if (lines === 0) this.clear();
    else this.#cut();
  }

  /** Adds lines, each its cells, or null where some may be missing. @param {(Int32Array | null)[]} lines */
  add(lines) {
    if (lines.length === 0 || this.#most === 0) return;
    for (const cells of lines) {
      if (cells === null) this.#mark();
      else this.#append(lineElement(cells));
      this.#isGap = cells === null;
    }
    this.#cut();
  }

  clear() {
    this.#element.replaceChildren();
    this.#count = 0;
    this.#isGap = false;
  }

  // One mark stands for as many gaps as there are behind each other, and none above the first line.
  #mark() {
    if (this.#isGap || this.#count === 0) return;
    const mark = document.createElement('p');
    mark.className = 'gap';
    mark.textContent = 'Lines may be missing here.';
    this.#element.lastElementChild.append(mark);
  }

  #append(line) {
    if (this.#count % TOGETHER === 0) {
      const block = document.createElement('div');
      block.className = 'block';
      this.#element.append(block);
    }
    const block = this.#element.lastElementChild;
    block.append(line);
    this.#count++;
    // Lines may be wider than the screen is now.
    const widest = Math.max(line.textContent.length, Number(block.style.getPropertyValue('--columns')));
    block.style.setProperty('--columns', String(widest));
    // A block that isn't seen isn't laid out, and has the height that its number of lines tells.
    block.style.setProperty('--lines', String(((this.#count - 1) % TOGETHER) + 1));
  }

  #cut() {
    while (this.#count - TOGETHER >= this.#most && this.#count > 0) {
      this.#element.firstElementChild.remove();
      this.#count -= Math.min(TOGETHER, this.#count);
    }
  }
}
