// A tunnel over one WebSocket (docs/PROTOCOL.md, "The WebSocket tunnel"). Each message is answered by one, and none comes
// unasked, so the page asks by a clock, which doesn't wait for answers: a long way then counts once.

import { Reader, Unreadable, textOf } from './instructions.js';
import { Timer } from './timer.js';
import { NoWay, Refusal, TIMES, isLast } from './tunnel.js';

/** How long a page rests between its questions, in milliseconds: at first, and at most while something happened within
 *  the time that is `lively`, while nothing did, and in a tab that nobody sees. */
export const QUESTIONS = { first: 10, busy: 40, quiet: 250, hidden: 1000, lively: 60000 };

const SUBPROTOCOL = 'guacamole';
// How many messages may have no answer yet, lest a slow link gets slower.
const MOST_UNANSWERED = 8;
// How long, in milliseconds, a WebSocket may take to open.
const SHAKING = 10000;
const ACKNOWLEDGES = /^4\.sync,[0-9]+\.[0-9]+;$/;

/** @typedef {import('./tunnel.js').Tunnel} Tunnel */

/** A tunnel over a WebSocket. @implements {Tunnel} */
export class WebSocketTunnel {
  /** @type {import('./tunnel.js').State} */
  state = 'connecting';
  session = '';
  most = MOST_UNANSWERED;
  #address;
  #tried;
  /** @type {WebSocket | null} */
  #socket = null;
  /** @type {import('./tunnel.js').Hearer} */
  #hearer = { changed() {}, given() {} };
  #reader = new Reader();
  // What has no answer yet, the oldest first, and what is only said once less has none.
  /** @type {{ since: number, done(): void, failed(fault: Error): void }[]} */
  #unanswered = [];
  /** @type {{ text: string, done(): void, failed(fault: Error): void }[]} */
  #waiting = [];
  // An acknowledgement, which goes along with the next message.
  #stamp = '';
  #stirred = 0;
  #rest = QUESTIONS.first;
  #timer = new Timer();
  #limit = 0;
  #looks = 0;
  #seen = () => this.#stir();

  /** @param {string} address  @param {(isThere: boolean) => void} tried  is told whether a WebSocket was opened */
  constructor(address, tried) {
    this.#address = address;
    this.#tried = tried;
  }

  connect(form, hearer) {
    this.#hearer = hearer;
    this.#limit = setTimeout(() => this.#socket?.close(), SHAKING);
    try {
      this.#socket = new WebSocket(this.#address, SUBPROTOCOL);
    } catch {
      return this.#lose(false);
    }
    let isThere = false;
    this.#socket.onopen = () => {
      isThere = true;
      this.#tried(true);
      clearTimeout(this.#limit);
      this.#limit = setTimeout(() => this.cut(), form.id !== undefined ? TIMES.limit : TIMES.opening);
      this.#say(String(new URLSearchParams(form)));
    };
    this.#socket.onmessage = ({ data }) => this.#attempt(() => this.#hear(data));
    this.#socket.onclose = () => this.#lose(isThere);
  }

  // A browser doesn't tell why there is no WebSocket: it may be refused, or nothing is reached.
  #lose(isThere) {
    if (this.state === 'closed') return;
    if (!isThere) this.#tried(false);
    this.#close(isThere ? new Refusal(0, 0) : new NoWay());
  }

  // What isn't foreseen closes it.
  #attempt(act) {
    try {
      if (this.state !== 'closed') act();
    } catch (fault) {
      this.#close(fault);
    }
  }

  #hear(text) {
    if (typeof text !== 'string') throw new Unreadable('a message that is no text');
    const answered = this.#unanswered.shift();
    if (answered === undefined) throw new Unreadable('a message that nothing asked for');
    answered.done();
    const instructions = this.#reader.read(text);
    this.#give(this.state === 'connecting' ? this.#begin(instructions) : instructions);
  }

  // The first answer tells the session's ID, or why there is none. It answers what stands behind that.
  #begin(instructions) {
    const [[opcode, ...values] = [''], ...others] = instructions;
    if (opcode === 'error') throw new Refusal(Number(values[1]), 0);
    if (opcode !== 'ready') throw new Unreadable('an answer without an ID');
    this.session = values[0];
    clearTimeout(this.#limit);
    globalThis.document?.addEventListener('visibilitychange', this.#seen);
    this.#looks = setInterval(() => this.#look(), TIMES.betweenLooks);
    this.#stir();
    this.#become('open');
    return others;
  }

  #give(instructions) {
    if (instructions.length > 0) {
      this.#stir();
      this.#hearer.given(instructions);
    }
    if (instructions.some(isLast)) this.#close();
    else this.#flush();
  }

  send(text) {
    if (this.state === 'closed') return Promise.reject(new Refusal(0, 0));
    this.#stir();
    if (ACKNOWLEDGES.test(text)) {
      this.#stamp = text;
      return Promise.resolve();
    }
    return new Promise((done, failed) => {
      this.#waiting.push({ text, done: () => done(), failed });
      this.#flush();
    });
  }

  #flush() {
    while (this.#waiting.length > 0 && this.#unanswered.length < MOST_UNANSWERED) {
      const { text, done, failed } = this.#waiting.shift();
      this.#say(text, done, failed);
    }
  }

  #say(text, done = () => {}, failed = (_) => {}) {
    this.#unanswered.push({ since: performance.now(), done, failed });
    this.#socket.send(this.#stamp + text);
    this.#stamp = '';
  }

  #ask() {
    if (this.#unanswered.length < MOST_UNANSWERED) this.#say('');
    const isLively = performance.now() - this.#stirred < QUESTIONS.lively;
    this.#rest = Math.min(2 * this.#rest, isLively ? QUESTIONS.busy : QUESTIONS.quiet);
    this.#askLater();
  }

  // Something has happened, so more may soon.
  #stir() {
    this.#stirred = performance.now();
    this.#rest = QUESTIONS.first;
    this.#askLater();
  }

  #askLater() {
    if (this.state !== 'closed') this.#timer.set(() => this.#attempt(() => this.#ask()), globalThis.document?.hidden ? QUESTIONS.hidden : this.#rest);
  }

  #look() {
    const silent = performance.now() - (this.#unanswered[0]?.since ?? Infinity);
    if (silent > TIMES.limit) this.cut();
    else this.#become(silent > TIMES.stalled ? 'unstable' : 'open');
  }

  cut() {
    this.#close(new Refusal(0, 0));
  }

  disconnect() {
    if (this.state === 'closed') return;
    if (this.#socket?.readyState === WebSocket.OPEN) this.#socket.send(textOf('disconnect'));
    this.#close();
  }

  /** The gateway sees the end of a connection, and the place with it. */
  async giveBack() {}

  #become(state) {
    if (state === this.state || this.state === 'closed') return;
    this.state = state;
    this.#hearer.changed(state);
  }

  /** @param {Error} [fault] */
  #close(fault) {
    if (this.state === 'closed') return;
    this.state = 'closed';
    clearTimeout(this.#limit);
    this.#timer.end();
    clearInterval(this.#looks);
    globalThis.document?.removeEventListener('visibilitychange', this.#seen);
    this.#socket?.close();
    for (const { done, failed } of [...this.#unanswered, ...this.#waiting]) fault ? failed(fault) : done();
    this.#hearer.changed('closed', fault);
  }
}
