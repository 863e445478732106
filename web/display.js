// The terminal that a person sees. What is drawn is shown at a sync, in one paint, so no half picture is ever seen: as
// sharp text or as the gateway's own pixels, with the same characters as text over them, and the lines that have gone
// up above them.

import { Cells, faceOf, paperOf, refitted, textOf } from './cells.js';
import { CELL_HEIGHT, CELL_WIDTH } from './font.js';
import { Layers } from './layers.js';
import { Scrollback } from './scrollback.js';
import { FAMILY, Sharp, advance, cellFor, sizeFor } from './sharp.js';
import { TextLayer } from './textlayer.js';

/** The room that the frame around the terminal takes, in pixels of the page, both sides together. */
const MARGIN = 20;
// The font whose advance is about the width of the gateway's cell.
const EXACT_FONT = 13;
// The font of a session that follows the window, in pixels of the page, and what such a session has at least; and both
// on a phone, where 80 columns couldn't be read.
const DESK = { font: 15, least: { columns: 80, rows: 24 } };
const PHONE = { font: 13, least: { columns: 40, rows: 12 } };
const PHONE_SIDE = 600;
// How long a size that was told may take until it is shown, in milliseconds.
const SOON = 600;

/** A terminal that shows the layers of a view at each of its syncs, in the room that it has. */
export class Display {
  #elements;
  #choices;
  #speech;
  #context;
  #sharp;
  #text;
  #scrollback;
  #cells = new Cells();
  #layers = new Layers();
  // The cells as they were shown last.
  #shown = new Int32Array(0);
  #columns = 0;
  #cursor = -1;
  #isAtEnd = true;
  // Whether the screen is higher than its room, and whether it is wider.
  #isHigh = false;
  #isWide = false;
  #ratio = advance();
  #fits;
  // What the window was when it was last told for what it has room, and its room while no keyboard lies over it.
  #window = '';
  #open = { width: 0, height: 0 };
  #waiting = 0;
  /** Whether the session follows the window. */
  follows = false;

  /**
   * @param {(id: string) => any} element  gives the elements of the page by their IDs
   * @param {import('./choices.js').Choices} choices @param {import('./speech.js').Speech} speech
   * @param {(size: import('./follow.js').Size) => void} fits  is told for how many columns and rows the window has room,
   *   whenever the window or its font is another one
   */
  constructor(element, choices, speech, fits) {
    const elements = Object.fromEntries(['screen', 'scrollback', 'terminal', 'picture', 'sharp', 'text', 'keys'].map((id) => [id, element(id)]));
    this.#elements = elements;
    this.#choices = choices;
    this.#speech = speech;
    this.#fits = fits;
    this.#context = elements.picture.getContext('2d', { alpha: false, willReadFrequently: true });
    this.#sharp = new Sharp(elements.sharp);
    this.#text = new TextLayer(elements.text);
    this.#scrollback = new Scrollback(elements.scrollback);
    this.#scrollback.most = choices.lines;
    elements.screen.style.setProperty('--family', FAMILY);
    elements.screen.addEventListener('scroll', () => { this.#isAtEnd = this.#isEndShown(); }, { passive: true });
    new ResizeObserver(() => this.#refit()).observe(elements.screen);
    // Lines that come into sight are laid out then, and may be higher than they were taken for.
    new ResizeObserver(() => { if (this.#isAtEnd) this.#stayAtEnd(); }).observe(elements.scrollback);
    this.#watchRatio();
    this.clear();
  }

  /** What is drawn begins anew, with layers that have no pixels. What is shown stays until the next sync, and lines may be
   *  missing between them. */
  renew() {
    this.#cells = new Cells();
    this.#layers = this.#cells.layers = new Layers(this.#cells);
    this.#scrollback.add([null]);
  }

  /** Begins anew, with nothing above a black screen. */
  clear() {
    this.renew();
    this.#shown = new Int32Array(0);
    this.#columns = 0;
    this.#cursor = -1;
    this.#scrollback.clear();
    this.#text.clear();
    this.#sharp.clear();
    this.#context.clearRect(0, 0, this.#elements.picture.width, this.#elements.picture.height);
  }

  set choices(choices) {
    this.#choices = choices;
    this.#scrollback.most = choices.lines;
    this.#fit();
  }

  /** The columns and rows that are shown. */
  get size() {
    return { columns: this.#columns, rows: this.#columns && this.#shown.length / this.#columns };
  }

  /** The columns and rows for which the window has room, which are told too: again, or only where it is another window.
   *  @returns {import('./follow.js').Size} */
  measured(isAgain = true) {
    if (isAgain) this.#window = '';
    this.#tellRoom();
    return this.#roomFor();
  }

  #roomFor() {
    const { font, least } = isPhone() ? PHONE : DESK;
    return sizeFor(this.#room(), this.#cell({ columns: 1, rows: 1 }, this.#choices.size || font), least);
  }

  /** Draws an instruction, and answers whether it is one that draws. Nothing is seen of it before `show`. */
  draw(instruction) {
    return this.#layers.draw(instruction);
  }

  /** Ends a frame. */
  settle() {
    this.#cells.settle();
  }

  /** Shows what was drawn, at a sync. */
  show() {
    const { width, height } = this.#layers.visible;
    if (width === 0 || height === 0) return;
    const { cells, columns } = this.#cells;
    const isOther = columns !== this.#columns || cells.length !== this.#shown.length;
    const before = isOther ? refitted(this.#shown, this.#columns, columns, cells.length / columns) : this.#shown;
    if (isOther) this.#turn(columns, cells.length / columns);
    this.#shown = cells.slice();
    this.#columns = columns;
    this.#paintExact();
    if (isOther) this.#fit();
    else if (this.#choices.text === 'sharp') this.#sharp.show(this.#shown, this.#pictureAt);
    const gone = this.#cells.takeGone();
    const lines = /** @type {Int32Array[]} */ (gone.filter((it) => it !== null));
    this.#text.show(this.#shown, columns, lines.length);
    this.#scrollback.add(gone);
    this.#speech.note(this.#text.lines, lines.map(textOf));
    const cursor = cursorOf(this.#shown, columns, before, this.#cursor);
    if (cursor !== this.#cursor) this.#placeKeys(cursor);
    if ((gone.length > 0 || this.#isHigh) && this.#isAtEnd) this.#stayAtEnd();
  }

  // The screen has another size: its lines are cut off, and the cursor keeps its column and row as far as they are there.
  #turn(columns, rows) {
    this.#speech.cut(columns);
    if (this.#cursor < 0) return;
    const [x, y] = [this.#cursor % this.#columns, Math.floor(this.#cursor / this.#columns)];
    this.#cursor = Math.min(y, rows - 1) * columns + Math.min(x, columns - 1);
  }

  /** Goes to the screen, below all lines that have left it, and to the cursor where the screen is wider than its room. */
  toEnd() {
    if (!this.#isAtEnd) this.#stayAtEnd();
    if (this.#isWide) this.#elements.keys.scrollIntoView({ block: 'nearest', inline: 'nearest' });
  }

  #stayAtEnd() {
    this.#elements.screen.scrollTop = this.#end();
  }

  // How far the page is scrolled at its end: to the last line, or to the cursor's where the screen is higher than its room.
  #end() {
    const { screen, terminal, keys } = this.#elements;
    // Both are rounded, and nothing is scrolled further than to the end.
    const last = screen.scrollHeight - screen.clientHeight + 1;
    if (!this.#isHigh) return last;
    const [top, bottom] = [terminal.getBoundingClientRect().top, keys.getBoundingClientRect().bottom].map((it) => it - screen.getBoundingClientRect().top + screen.scrollTop);
    return Math.min(last, Math.max(top - MARGIN / 2, bottom + MARGIN / 2 - screen.clientHeight));
  }

  /** Goes up or down by so many pages, or to the first line. */
  scroll(pages) {
    const { screen } = this.#elements;
    this.#scrollTo(pages === -Infinity ? 0 : screen.scrollTop + pages * (screen.clientHeight - this.#lineHeight()));
  }

  /** Goes up or down by so many lines. */
  scrollLines(lines) {
    this.#scrollTo(this.#elements.screen.scrollTop + lines * this.#lineHeight());
  }

  #scrollTo(top) {
    this.#elements.screen.scrollTop = top;
    this.#isAtEnd = this.#isEndShown();
  }

  // A window that goes to another screen may keep its size.
  #watchRatio() {
    matchMedia(`(resolution: ${devicePixelRatio}dppx)`).addEventListener('change', () => { this.#fit(); this.#watchRatio(); }, { once: true });
  }

  #lineHeight() {
    return this.#elements.text.firstElementChild?.getBoundingClientRect().height ?? CELL_HEIGHT;
  }

  #isEndShown() {
    return this.#end() - this.#elements.screen.scrollTop < 4;
  }

  // What changed of the gateway's pixels. The canvas of a screen of another size is painted whole.
  #paintExact() {
    const { width, height, pixels } = this.#layers.visible;
    const { picture } = this.#elements;
    let dirty = this.#cells.takeDirty();
    if (picture.width !== width || picture.height !== height) {
      Object.assign(picture, { width, height });
      dirty = { x: 0, y: 0, width, height };
    }
    if (dirty.width > 0) this.#context.putImageData(new ImageData(new Uint8ClampedArray(pixels.buffer), width, height), 0, 0, dirty.x, dirty.y, dirty.width, dirty.height);
  }

  #pictureAt = (x, y) => new Uint32Array(this.#context.getImageData(x * CELL_WIDTH, y * CELL_HEIGHT, CELL_WIDTH, CELL_HEIGHT).data.buffer);

  // The room that the window has for a screen, in pixels of the device. A keyboard on the screen takes height alone, and
  // comes and goes as a person types; the room is then what it was without it.
  #room() {
    const { clientWidth: width, offsetHeight: height } = this.#elements.screen;
    const isTyping = document.activeElement === this.#elements.keys && matchMedia('(pointer: coarse)').matches;
    this.#open = { width, height: isTyping && width === this.#open.width ? Math.max(height, this.#open.height) : height };
    return { width: (width - MARGIN) * devicePixelRatio, height: (this.#open.height - MARGIN) * devicePixelRatio };
  }

  // The cell of a screen, for a font of the size that is wanted, or 0 for one that fits.
  #cell({ columns, rows }, wanted) {
    const room = this.#room();
    if (this.#choices.text === 'exact') return this.#exactCell(room, columns, rows, wanted);
    return cellFor({ columns, rows, room, wanted: wanted * devicePixelRatio, ratio: this.#ratio });
  }

  // A window that is told once has to change before it is told again, so that no message below the terminal, and no size
  // of another viewer, is taken for its change.
  #tellRoom() {
    const now = [innerWidth, innerHeight, devicePixelRatio, this.#choices.text, this.#choices.size].join();
    if (now === this.#window) return;
    this.#window = now;
    this.#fits(this.#roomFor());
  }

  // A session that follows the window has another size soon. Until then all stays as large as it is, so that the text
  // doesn't grow and shrink while a window is drawn larger; where no size comes, it fits then.
  #refit() {
    if (this.#elements.screen.clientWidth === 0) return;
    const { columns, rows } = this.measured(false);
    const isSame = columns === this.#columns && rows === this.size.rows;
    clearTimeout(this.#waiting);
    if (!this.follows || isSame || this.#columns === 0) return this.#fit();
    this.#elements.screen.toggleAttribute('data-turning', true);
    this.#waiting = setTimeout(() => this.#fit(), SOON);
  }

  // Chooses the size of a cell, and lays all that is shown over each other.
  #fit() {
    const { screen, terminal } = this.#elements;
    clearTimeout(this.#waiting);
    screen.toggleAttribute('data-turning', false);
    if (screen.clientWidth === 0) return;
    this.#tellRoom();
    if (this.#columns === 0) return;
    const { columns, rows } = this.size;
    const isExact = this.#choices.text === 'exact';
    const cell = this.#cell({ columns, rows }, this.#choices.size);
    const [width, height] = [cell.width / devicePixelRatio, cell.height / devicePixelRatio];
    const set = (name, value) => screen.style.setProperty(name, `${value}px`);
    set('--cell-width', width);
    set('--cell-height', height);
    set('--font', cell.font / devicePixelRatio);
    set('--width', columns * width);
    set('--spacing', 0);
    set('--spacing', width - this.#advance());
    Object.assign(terminal.style, { width: `${columns * width}px`, height: `${rows * height}px` });
    screen.dataset.text = this.#choices.text;
    if (!isExact) {
      this.#sharp.fit(columns, rows, cell);
      this.#sharp.show(this.#shown, this.#pictureAt);
    }
    this.#isHigh = rows * height + MARGIN > screen.clientHeight;
    this.#isWide = columns * width + MARGIN > screen.clientWidth;
    this.#placeKeys(this.#cursor);
    if (this.#isAtEnd) this.#stayAtEnd();
  }

  // The gateway's cell, each pixel of which is a whole number of the device's.
  #exactCell(room, columns, rows, wanted) {
    const most = wanted ? Math.round((wanted * devicePixelRatio) / EXACT_FONT) : Math.floor(Math.min(room.width / columns / CELL_WIDTH, room.height / rows / CELL_HEIGHT));
    const factor = Math.max(1, most);
    return { width: CELL_WIDTH * factor, height: CELL_HEIGHT * factor, font: (CELL_WIDTH * factor) / this.#ratio };
  }

  // The advance of a character of the rows' font, in pixels of the page.
  #advance() {
    const probe = document.createElement('div');
    probe.className = 'line probe';
    probe.append('x'.repeat(100));
    this.#elements.scrollback.parentElement.append(probe);
    const { width } = probe.getBoundingClientRect();
    probe.remove();
    return width / 100;
  }

  // The field stands at the cursor, so that what an input method shows is seen there.
  #placeKeys(cursor) {
    this.#cursor = cursor;
    const at = Math.max(cursor, 0);
    const { style } = this.#elements.keys;
    style.setProperty('--x', String(at % this.#columns));
    style.setProperty('--y', String(Math.floor(at / this.#columns)));
  }
}

// Whether the screen of the device is a phone's.
const isPhone = () => matchMedia('(pointer: coarse)').matches && Math.min(globalThis.screen.width, globalThis.screen.height) < PHONE_SIDE;

/**
 * Where the cursor seems to be, which is drawn as a cell whose colours are exchanged: a cell whose paper is neither that
 * of the cell before it nor of the one behind it, the last of those that have changed; or else where it was. Nothing rests
 * on it but the place of what an input method shows, and which part is shown of a screen that its room is too small for.
 */
export function cursorOf(cells, columns, before, last) {
  const isOne = (k) => {
    const paper = paperOf(cells[k]);
    const isOther = (other) => other < 0 || other >= cells.length || paperOf(cells[other]) !== paper;
    return isOther(k % columns === 0 ? -1 : k - 1) && isOther((k + 1) % columns === 0 ? -1 : k + 1) && (paper !== 0 || faceOf(cells[k]) !== 0x20);
  };
  for (let k = cells.length - 1; k >= 0; k--) if (cells[k] !== before[k] && isOne(k)) return k;
  return last;
}
