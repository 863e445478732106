// What a screen reader says by itself: the lines that are new, once they have settled, and at most a screen of them a
// second.

const SETTLED = 300;
const BETWEEN = 1000;

/** What is new in a line: what was added at its end, or all of it where it is another one. */
export function newPart(before, now) {
  return (now.startsWith(before) ? now.slice(before.length) : now).trim();
}

/** Says the new lines of a screen in an element that is a live region. */
export class Speech {
  #region;
  #timers;
  // The screen as it was last said, and as it is.
  #said = [];
  #lines = [];
  #waiting = [];
  #typed = '';
  #timer = 0;
  #first = 0;
  #isOn = true;

  /** `timers` has the calls of a browser's window for time. */
  constructor(region, timers = { set: (act, time) => setTimeout(act, time), clear: (timer) => clearTimeout(timer), now: () => Date.now() }) {
    this.#region = region;
    this.#timers = timers;
  }

  get isOn() {
    return this.#isOn;
  }

  set isOn(isOn) {
    this.#isOn = isOn;
    this.#waiting = [];
    this.#said = this.#lines;
    if (!isOn) this.#region.replaceChildren();
  }

  /** The screen has these lines, and those that are gone went off its top since the last call. */
  note(lines, gone) {
    for (const line of gone) {
      const [before, ...rest] = this.#said;
      this.#said = rest;
      this.#await(before ?? '', line);
    }
    this.#lines = [...lines];
    if (!this.#isOn) { this.#said = this.#lines; return; }
    if (gone.length === 0 && lines.every((line, y) => line === (this.#said[y] ?? ''))) return;
    const now = this.#timers.now();
    if (this.#timer === 0) this.#first = now;
    else this.#timers.clear(this.#timer);
    this.#timer = this.#timers.set(() => this.#say(), Math.max(0, Math.min(SETTLED, this.#first + BETWEEN - now)));
  }

  /** The screen has so many columns now. What is left of a line isn't new. */
  cut(columns) {
    this.#said = this.#said.map((line) => line.slice(0, columns).trimEnd());
  }

  /** A character was typed, whose echo needs not be said. */
  typed(character) {
    this.#typed = (this.#typed + character).slice(-200);
  }

  #await(before, now) {
    const part = this.#isOn ? newPart(before, now) : '';
    if (part !== '') this.#waiting.push(part);
    if (this.#waiting.length > 2 * this.#lines.length) this.#waiting.splice(0, this.#waiting.length - this.#lines.length);
  }

  #say() {
    this.#timer = 0;
    this.#lines.forEach((line, y) => this.#await(this.#said[y] ?? '', line));
    this.#said = this.#lines;
    const parts = this.#waiting.slice(-this.#lines.length);
    this.#waiting = [];
    const isEcho = parts.length === 1 && this.#typed.endsWith(parts[0]);
    this.#typed = '';
    if (isEcho || parts.length === 0) return;
    this.#region.replaceChildren(...parts.map((part) => {
      const line = document.createElement('p');
      line.textContent = part;
      return line;
    }));
  }
}
