// One view of a session, from its opening to its end, by one tunnel after the other where the link is lost.

import { CELL_HEIGHT, CELL_WIDTH } from './font.js';
import { Unreadable, textOf } from './instructions.js';
import { isModifier } from './keysyms.js';
import { Outbox } from './outbox.js';
import { Rest, TRIES } from './rest.js';
import { NoWay, Refusal } from './tunnel.js';

/**
 * How a view ended: by the host, by whoever left, by an `error` of the gateway or a refusal of it, by a link that is lost
 * to a session that can't be joined, by what can't be read, or by a fault of the page.
 * @typedef {{ by: 'host' } | { by: 'left' } | { by: 'error', code: number } | { by: 'refusal', code: number, status: number } | { by: 'unreachable' } | { by: 'unreadable' } | { by: 'fault' }} End
 */

/**
 * Who is told of a view: the stamp that is shown; how the link is; whether something new comes behind a key; that keys
 * may be lost, or were thrown away.
 * @typedef {object} Told
 * @property {(stamp: string) => void} shown
 * @property {(state: 'open' | 'unstable' | 'lost') => void} changed
 * @property {(isAnswered: boolean) => void} answered
 * @property {() => void} lost
 * @property {() => void} thrown
 */

// How long, in milliseconds, something new may take behind a key before the viewer is told that nothing answers.
const UNANSWERED = 3000;
const BETWEEN_LOOKS = 500;
// Where the clock went on by so much between two looks the machine has slept, and a link may be dead that looks open.
// Browsers look once a minute for a page that isn't seen.
const SLEPT = 20000;
const SLEPT_HIDDEN = 90000;
// A link that was open for so long begins anew with its tries.
const STEADY = 10000;
// Pixels to the inch, which the protocol has and the gateway passes over.
const RESOLUTION = 96;
// The statuses of a tunnel or a session that isn't there, and of one that is full.
const ABSENT = 516;
const FULL = 797;

/** A viewer's way: it reads, shows and acknowledges, and sends keys. */
export class View {
  #make;
  /** @type {import('./tunnel.js').Tunnel | null} */
  #tunnel = null;
  // Tunnels whose places aren't given back yet.
  #past = new Set();
  #display;
  #readOnly;
  #told;
  #outbox;
  #tries = new Rest(TRIES);
  // What the next tunnel opens or joins.
  /** @type {Record<string, string>} */
  #form = {};
  #wasOpen = false;
  #hasLeft = false;
  /** @type {End | null} */
  #end = null;
  // A size that was told while there was no link.
  #size = '';
  #sent = 0;
  #isAnswered = true;
  #looks = 0;
  #looked = { at: 0, isHidden: false };

  /**
   * @param {() => import('./tunnel.js').Tunnel} make  makes a tunnel for each connection
   * @param {{ draw(instruction: string[]): boolean, settle(): void, show(): void, renew(): void }} display
   * @param {boolean} readOnly
   * @param {Told} told
   */
  constructor(make, display, readOnly, told) {
    this.#make = make;
    this.#display = display;
    this.#readOnly = readOnly;
    this.#told = told;
    this.#outbox = new Outbox(told);
  }

  /** Whether keys are sent. */
  get types() {
    return !this.#readOnly;
  }

  /** The ID by which the session can be joined, or nothing where it isn't known. */
  get session() {
    return this.#form.id ?? '';
  }

  /** Shows what the viewer is given until the session is over or can't be reached, and answers how it ended. The form
   *  opens a session, or joins one by its ID. It is joined again where the link was lost and its ID is known.
   *  @returns {Promise<End>} */
  async run(form) {
    this.#form = form;
    this.#looked.at = Date.now();
    this.#looks = setInterval(() => this.#look(), BETWEEN_LOOKS);
    /** @type {End | null} */
    let end = null;
    while (!this.#hasLeft && (end = await this.#attend()) === null) {
      this.#told.changed('lost');
      await this.#tries.once();
    }
    clearInterval(this.#looks);
    if (end === null || this.#hasLeft) end = { by: 'left' };
    this.leave();
    return end;
  }

  // One connection, from its opening to its end. It answers how the view ended, or null where it can be tried again.
  /** @returns {Promise<End | null>} */
  async #attend() {
    const since = Date.now();
    let fault;
    try {
      for (const tunnel of this.#past) {
        await tunnel.giveBack();
        this.#past.delete(tunnel);
      }
      do fault = await this.#hear();
      while (fault instanceof NoWay && !this.#hasLeft);
    } catch (caught) {
      fault = caught;
    }
    const wasHere = this.#tunnel !== null;
    if (this.#tunnel !== null) this.#past.add(this.#tunnel);
    this.#tunnel = null;
    this.#outbox.use(null);
    if (this.#end !== null || this.#hasLeft) return this.#end;
    if (!this.#wasOpen || !(fault instanceof Refusal)) return endOf(fault);
    if (this.#form.id === undefined) return fault.mayPass ? { by: 'unreachable' } : endOf(fault);
    if (wasHere && Date.now() - since > STEADY) this.#tries.cut();
    return fault.mayPass || fault.code === FULL || (wasHere && fault.code === ABSENT) ? null : endOf(fault);
  }

  // Hears a tunnel until it is closed, and answers by which fault.
  #hear() {
    const tunnel = this.#make();
    return new Promise((closed) => {
      tunnel.connect(this.#form, {
        given: (instructions) => this.#play(instructions),
        changed: (state, fault) => {
          if (state === 'open' && this.#tunnel === null) this.#begin(tunnel);
          this.#outbox.turn();
          if (!this.#hasLeft && (state === 'open' || state === 'unstable')) this.#told.changed(state);
          if (state === 'closed') closed(fault);
        },
      });
    });
  }

  #begin(tunnel) {
    if (this.#hasLeft) return tunnel.disconnect();
    this.#tunnel = tunnel;
    if (tunnel.session !== '') this.#form = { id: tunnel.session, 'read-only': String(this.#readOnly) };
    this.#outbox.use(tunnel);
    if (this.#wasOpen) {
      this.#display.renew();
      if (this.types) this.#outbox.release();
      if (this.#size !== '') this.#outbox.add(this.#size);
    }
    this.#wasOpen = true;
    this.#size = '';
    this.#sent = 0;
  }

  /** Sends a key, but for a viewer who only looks on. */
  press(keysym, isPressed) {
    if (!this.types || !this.#wasOpen) return;
    this.#outbox.add(textOf('key', keysym, isPressed ? 1 : 0), true);
    if (isPressed && !isModifier(keysym) && this.#sent === 0 && this.#tunnel?.state === 'open') this.#sent = performance.now();
  }

  /** Gives the session a size, but for a viewer who only looks on. @param {import('./follow.js').Size} size */
  resize({ columns, rows }) {
    if (!this.types) return;
    const text = textOf('size', columns * CELL_WIDTH, rows * CELL_HEIGHT, RESOLUTION);
    if (this.#tunnel === null) this.#size = text;
    else this.#outbox.add(text);
  }

  /** Tries at once to come back to a link that is lost. */
  hurry() {
    this.#tries.cut();
  }

  /** Leaves, also while the page goes away. */
  leave() {
    this.#hasLeft = true;
    this.#tries.cut();
    this.#tunnel?.disconnect();
    this.#past.forEach((tunnel) => tunnel.disconnect());
  }

  // Draws instructions, shows them at their last sync and acknowledges it.
  #play(instructions) {
    let stamp = null;
    for (const instruction of instructions) {
      const [opcode, ...given] = instruction;
      if (opcode === 'sync') {
        stamp = given[0];
        this.#display.settle();
      } else if (opcode === 'disconnect') this.#end = { by: 'host' };
      else if (opcode === 'error') this.#end = { by: 'error', code: Number(given[1]) };
      else this.#display.draw(instruction);
    }
    if (stamp !== null) this.#show(stamp);
  }

  #show(stamp) {
    this.#display.show();
    this.#told.shown(stamp);
    this.#outbox.add(textOf('sync', stamp));
    this.#sent = 0;
    this.#answer(true);
  }

  #look() {
    const { at, isHidden } = this.#looked;
    this.#looked = { at: Date.now(), isHidden: globalThis.document?.hidden === true };
    if (this.#form.id !== undefined && this.#looked.at - at > (isHidden ? SLEPT_HIDDEN : SLEPT)) this.#tunnel?.cut();
    if (this.#sent !== 0 && performance.now() - this.#sent > UNANSWERED && this.#tunnel?.state === 'open') this.#answer(false);
  }

  #answer(isAnswered) {
    if (isAnswered !== this.#isAnswered) this.#told.answered(isAnswered);
    this.#isAnswered = isAnswered;
  }
}

/** How a fault ends a view. A frame that can't be read ends it, as all that isn't foreseen does.
 *  @returns {End} */
export function endOf(fault) {
  if (fault instanceof Refusal) return { by: 'refusal', code: fault.code, status: fault.status };
  if (fault instanceof Unreadable) return { by: 'unreadable' };
  console.error(fault);
  return { by: 'fault' };
}
