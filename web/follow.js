// What has a session follow a window: the page tells for how many columns and rows the window has room, once the window
// has rested. Each change of a session's size is a frame for all its viewers.

/** How long a window has to rest, in milliseconds. */
const REST = 200;

/** @typedef {{ columns: number, rows: number }} Size */

const isSame = (one, other) => one?.columns === other?.columns && one?.rows === other?.rows;

/** Tells a session its sizes. One that another viewer has told stands until the own window changes. */
export class Follow {
  #tell;
  #timers;
  #timer = 0;
  // For what the window has room, what was told last, and the session's size as it was shown last.
  #room = null;
  #told = null;
  #shown = null;
  #isOn = false;

  /** `tell` is given sizes; `timers` has the calls of a browser's window for time.
   *  @param {(size: Size) => void} tell */
  constructor(tell, timers = { set: (act, time) => setTimeout(act, time), clear: (timer) => clearTimeout(timer) }) {
    this.#tell = tell;
    this.#timers = timers;
  }

  /** A session begins that has this size, or is joined, and then has none yet. @param {Size | null} opened */
  begin(opened) {
    this.#told = opened;
    this.#shown = null;
  }

  /** Whether the session follows the window. */
  set isOn(isOn) {
    this.#isOn = isOn;
    this.#rest();
  }

  /** The window has room for this size. @param {Size} size */
  fits(size) {
    if (isSame(size, this.#room)) return;
    this.#room = size;
    this.#rest();
  }

  /** The session has this size. @param {Size} size */
  shows(size) {
    const isFirst = this.#shown === null;
    this.#shown = size;
    if (isFirst) this.#rest();
  }

  #rest() {
    this.#timers.clear(this.#timer);
    this.#timer = this.#timers.set(() => this.#settle(), REST);
  }

  // What was told may be on its way yet, so that the session has another size than it shows.
  #settle() {
    if (!this.#isOn || this.#room === null || this.#shown === null) return;
    if (isSame(this.#room, this.#shown) && (this.#told === null || isSame(this.#room, this.#told))) return;
    this.#told = this.#room;
    this.#tell(this.#room);
  }
}
