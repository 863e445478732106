// Ways to the gateway. A tunnel carries instructions there and back and tells how the link is, as those of Guacamole's
// own client do; a view knows nothing of what it stands on.

import { Reader, Unreadable, textOf } from './instructions.js';
import { READS, Rest, TRIES } from './rest.js';

/** @typedef {'connecting' | 'open' | 'unstable' | 'closed'} State */

/**
 * Who is told of a tunnel: each new state, and with `closed` the fault, where it is closed by one; and the instructions
 * that came together.
 * @typedef {object} Hearer
 * @property {(state: State, fault?: Error) => void} changed
 * @property {(instructions: string[][]) => void} given
 */

/**
 * A tunnel, for one connection.
 * @typedef {object} Tunnel
 * @property {State} state
 * @property {string} session  the ID of the session once it is open, or nothing where the tunnel isn't told it
 * @property {number} most  how many texts may be on their way at once
 * @property {(form: Record<string, string>, hearer: Hearer) => void} connect  opens a session, or joins one
 * @property {(text: string) => Promise<void>} send  sends whole instructions, and ends once they have come to the gateway
 * @property {() => void} cut  gives the link up, as if it was lost
 * @property {() => void} disconnect  leaves, also while the page goes away
 * @property {() => Promise<void>} giveBack  gives back the place of a closed tunnel, or fails where nothing is reached
 */

/** Why a tunnel was never open: its kind can't be had here. Another kind may lead to the gateway. */
export class NoWay extends Error {}

const NO_MEMORY = 512;

/** A request that was refused, or had no answer: `code` is the status of Guacamole, 0 where there is none. */
export class Refusal extends Error {
  constructor(code, status) {
    super(`status ${status}, code ${code}`);
    this.code = code;
    this.status = status;
  }

  /** Whether it is the link's, or the gateway's for a while, so that the same may work later. */
  get mayPass() {
    return this.code === NO_MEMORY || (this.code === 0 && [0, 500, 502, 503, 504].includes(this.status));
  }

  /** Whether the session is over for the viewer. */
  get isOver() {
    return this.code === 516 || this.code === 523;
  }

  /** Whether it tells that nothing was done. A request without an answer may have been heard. */
  get isUndone() {
    return this.mayPass && [500, 502, 503].includes(this.status);
  }
}

/** In milliseconds: how long a session may take to open, and any other answer but that of a read which waits for news;
 *  after which time without an answer a link counts as unstable; how often it is looked at. */
export const TIMES = { opening: 120000, limit: 15000, stalled: 5000, betweenLooks: 500 };
// How long a page that is seen hears nothing, in milliseconds, before it asks whether the gateway is there.
const QUIET = 10000;
// Behind what a read gives.
const END = '0.;';

/** Whether an instruction is the last of a session. @param {string[]} instruction */
export const isLast = ([opcode]) => opcode === 'disconnect' || opcode === 'error';

/** A tunnel over plain HTTP requests (docs/PROTOCOL.md, "The HTTP tunnel"): one request opens it, others read what the
 *  viewer is given and write what it sends. @implements {Tunnel} */
export class HttpTunnel {
  /** @type {State} */
  state = 'connecting';
  session = '';
  most = 1;
  #path;
  #opened;
  #id = '';
  /** @type {Hearer} */
  #hearer = { changed() {}, given() {} };
  #reader = new Reader();
  #rest = new Rest(READS);
  // The requests that are under way, and since when those that aren't reads have had no answer.
  #underWay = new Set();
  #asked = new Set();
  #answered = 0;
  #isLost = false;
  #looks = 0;
  #end = () => {};
  /** @type {Promise<void>} */
  #ended = new Promise((resolve) => { this.#end = resolve; });

  /** @param {string} path  @param {() => void} [opened]  is told once it is open */
  constructor(path, opened = () => {}) {
    this.#path = path;
    this.#opened = opened;
  }

  async connect(form, hearer) {
    this.#hearer = hearer;
    this.session = form.id ?? '';
    try {
      // Nobody is told the ID of a session that is opened here, so that it may as well be closed once its viewer has left.
      const asked = new URLSearchParams(this.session !== '' ? form : { ...form, sharing: 'none' });
      this.#id = await this.#answerTo('connect', asked, this.session !== '' ? TIMES.limit : TIMES.opening);
      this.#opened();
      this.#become('open');
      this.#looks = setInterval(() => this.#look(), TIMES.betweenLooks);
      while (this.state !== 'closed') await this.#read();
    } catch (fault) {
      this.#close(fault);
    }
  }

  async #read() {
    // A gateway without memory for an answer gives it to the next read.
    const text = await this.#answerTo('read').catch((fault) => {
      if (fault.code !== NO_MEMORY) throw fault;
      return END;
    });
    if (!text.endsWith(END)) throw new Refusal(0, 0);
    const instructions = this.#reader.read(text.slice(0, -END.length));
    if (!this.#reader.isWhole) throw new Unreadable('an instruction without its end');
    if (instructions.length > 0) this.#hearer.given(instructions);
    if (instructions.some(isLast)) {
      this.#id = '';
      return this.#close();
    }
    // A gateway may answer at once though nothing is new. It isn't asked again as fast as it can answer.
    if (instructions.length === 0 || globalThis.document?.hidden) await this.#rest.once();
    else this.#rest.cut();
  }

  async send(text) {
    this.#rest.cut();
    try {
      await this.#answerTo('write', text, TIMES.limit);
    } catch (fault) {
      // The read that is under way tells that a session is over, and why.
      if (fault.isOver) return this.#ended;
      // Who can join again sees the whole screen then. Who can't goes on with the reads, as long as they are answered.
      if (this.session !== '' || !fault.mayPass) this.#close(fault);
      else this.#regain();
      throw fault;
    }
  }

  cut() {
    this.#close(new Refusal(0, 0));
  }

  disconnect() {
    if (this.#id !== '') navigator.sendBeacon(`${this.#path}?write:${this.#id}`, textOf('disconnect'));
    this.#id = '';
    this.#close();
  }

  async giveBack() {
    if (this.#id === '') return;
    try {
      await this.#answerTo('write', textOf('disconnect'), TIMES.limit);
    } catch (fault) {
      if (fault.mayPass) throw fault;
    }
    this.#id = '';
  }

  #become(state) {
    if (state === this.state || this.state === 'closed') return;
    this.state = state;
    this.#hearer.changed(state);
  }

  /** @param {Error} [fault] */
  #close(fault) {
    if (this.state === 'closed') return;
    this.state = 'closed';
    this.#end();
    clearInterval(this.#looks);
    this.#underWay.forEach((it) => it.abort());
    this.#hearer.changed('closed', fault);
  }

  // Whether the link gives answers. A read may wait as long as nothing happens, so it tells nothing of that.
  #look() {
    const now = performance.now();
    const isSilent = now - Math.min(...this.#asked) > TIMES.stalled;
    this.#become(isSilent || this.#isLost ? 'unstable' : 'open');
    // A machine without a network may be the gateway's own.
    const quiet = globalThis.navigator?.onLine === false ? TIMES.betweenLooks : QUIET;
    if (this.state === 'open' && this.#asked.size === 0 && now - this.#answered > quiet && !globalThis.document?.hidden) this.send('').catch(() => {});
  }

  // Asks until the gateway is there again.
  async #regain() {
    if (this.#isLost) return;
    this.#isLost = true;
    this.#become('unstable');
    const rest = new Rest(TRIES);
    while (this.#isLost && this.state !== 'closed') {
      await rest.once();
      try {
        await this.#answerTo('write', '', TIMES.limit);
        this.#isLost = false;
      } catch (fault) {
        if (!fault.mayPass && !fault.isOver) this.#close(fault);
      }
    }
    this.#become('open');
  }

  // The text that the answer to a request has.
  /** @param {'connect' | 'read' | 'write'} what @param {BodyInit} [body] @param {number} [limit] */
  async #answerTo(what, body = '', limit = 0) {
    const abort = new AbortController();
    const since = performance.now();
    const timer = limit > 0 ? setTimeout(() => abort.abort(), limit) : 0;
    this.#underWay.add(abort);
    if (what === 'write') this.#asked.add(since);
    let response;
    try {
      response = await fetch(`${this.#path}?${what}${what === 'connect' ? '' : `:${this.#id}`}`, { ...(what === 'read' ? {} : { method: 'POST', body }), cache: 'no-store', signal: abort.signal });
      if (response.ok) return await response.text();
    } catch {
      throw new Refusal(0, 0);
    } finally {
      clearTimeout(timer);
      this.#underWay.delete(abort);
      this.#asked.delete(since);
      this.#answered = performance.now();
    }
    throw new Refusal(Number(response.headers.get('Guacamole-Status-Code')) || 0, response.status);
  }
}
