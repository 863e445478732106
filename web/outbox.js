// What a view sends, in its order. While there is no link, what is typed is kept for a while, and then thrown away: half
// of a line that comes late is worse than none.

import { textOf } from './instructions.js';
import { MODIFIERS } from './keysyms.js';

// The most instructions that are sent together: one less than a gateway takes, since a tunnel may put another one before.
const MOST_INSTRUCTIONS = 4095;
// How long, in milliseconds, keys are kept.
const KEPT = 10000;

const RELEASES = MODIFIERS.map((keysym) => ({ text: textOf('key', keysym, 0), isKey: true }));

/** Sends instructions by one tunnel after the other. */
export class Outbox {
  /** @type {{ text: string, isKey: boolean }[]} */
  #waiting = [];
  /** @type {import('./tunnel.js').Tunnel | null} */
  #tunnel = null;
  // How many texts are on their way.
  #count = 0;
  #told;
  #timer = 0;
  #isThrown = false;

  /** @param {{ lost(): void, thrown(): void }} told  keys may not have come to the host, or were thrown away */
  constructor(told) {
    this.#told = told;
  }

  /** Sends by this tunnel from now on. What isn't a key was for the one before. */
  use(tunnel) {
    this.#tunnel = tunnel;
    this.#waiting = this.#waiting.filter(({ isKey }) => isKey);
  }

  /** Adds an instruction. Once keys were thrown away no others are kept. */
  add(text, isKey = false) {
    if (isKey && this.#isThrown) return;
    this.#waiting.push({ text, isKey });
    this.turn();
  }

  /** Modifiers that were held before are released before anything else is sent. */
  release() {
    if (this.#waiting[0] !== RELEASES[0]) this.#waiting.unshift(...RELEASES);
  }

  /** The tunnel has another state. */
  turn() {
    if (this.#tunnel?.state === 'open') {
      clearTimeout(this.#timer);
      this.#timer = 0;
      this.#isThrown = false;
      this.#send();
    } else if (this.#timer === 0 && this.#waiting.some(({ isKey }) => isKey)) this.#timer = setTimeout(() => this.#throw(), KEPT);
  }

  #throw() {
    this.#isThrown = true;
    this.#waiting = this.#waiting.filter(({ isKey }) => !isKey);
    this.release();
    this.#told.thrown();
  }

  #send() {
    while (this.#tunnel?.state === 'open' && this.#count < this.#tunnel.most && this.#waiting.length > 0) this.#sendPart(this.#tunnel);
  }

  /** @param {import('./tunnel.js').Tunnel} tunnel */
  async #sendPart(tunnel) {
    const part = this.#waiting.splice(0, MOST_INSTRUCTIONS);
    this.#count += 1;
    await tunnel.send(part.map(({ text }) => text).join('')).catch((fault) => this.#failed(part, fault));
    this.#count -= 1;
    this.#send();
  }

  // What may have been done isn't sent again: a Return that comes twice does harm, and a key that is missing is seen.
  #failed(part, fault) {
    if (fault.isUndone) this.#waiting.unshift(...part);
    else if (part.some(({ isKey }) => isKey)) {
      this.release();
      this.#told.lost();
    }
  }
}
