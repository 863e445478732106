// A timer that is on time in a tab that nobody sees, too.

/** One timer, which is set anew any number of times. */
export class Timer {
  #timer = 0;
  /** @type {Worker | null} */
  #worker = null;

  /** Acts once behind so many milliseconds, and no longer for what was set before. */
  set(act, length) {
    this.#cut();
    if (globalThis.document?.hidden) this.#setHidden(act, length);
    else this.#timer = setTimeout(act, length);
  }

  #setHidden(act, length) {
    this.#worker ??= new Worker(new URL('clock.js', import.meta.url));
    this.#worker.onmessage = act;
    this.#worker.postMessage(length);
  }

  #cut() {
    clearTimeout(this.#timer);
    if (this.#worker !== null) this.#worker.onmessage = null;
  }

  /** Ends it for good. */
  end() {
    this.#cut();
    this.#worker?.terminate();
    this.#worker = null;
  }
}
