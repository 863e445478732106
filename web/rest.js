// How long a page waits before it asks again.

/** Rests in milliseconds: between reads that found nothing, and between tries to come back to a gateway that isn't
 *  reached, the fourth of which comes before what is typed has been kept for 10 seconds and is thrown away. `hidden` is
 *  the least one of a page that nobody sees. */
export const READS = { lengths: [0, 10, 20, 40, 80, 160], hidden: 1000, events: ['visibilitychange'] };
export const TRIES = { lengths: [300, 700, 2000, 6500, 10000], hidden: 60000, events: ['online', 'visibilitychange'] };

/** Rests, each of the length that is listed behind the one before, and of the last one from there on. */
export class Rest {
  #of;
  #count = 0;
  #end = () => {};

  /** The events of the page's window end a rest. @param {{ lengths: number[], hidden: number, events: string[] }} of */
  constructor(of) {
    this.#of = of;
  }

  /** Rests once. */
  async once() {
    const { lengths, hidden, events } = this.#of;
    const length = lengths[Math.min(this.#count++, lengths.length - 1)];
    const cut = () => this.cut();
    let timer;
    await new Promise((end) => {
      this.#end = () => end(undefined);
      timer = setTimeout(end, globalThis.document?.hidden ? Math.max(length, hidden) : length);
      events.forEach((name) => globalThis.addEventListener?.(name, cut));
    });
    clearTimeout(timer);
    events.forEach((name) => globalThis.removeEventListener?.(name, cut));
  }

  /** Ends a rest that is under way, and begins anew. */
  cut() {
    this.#end();
    this.#count = 0;
  }
}
