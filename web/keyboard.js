// What a person types: keys that go down and up, text that an input method or a dead key makes, and what is pasted.

import { ALT, CONTROL, isModifier, keysymNamed, keysymsOf, meaningOfKey } from './keysyms.js';

// It stands in the field, so that a keyboard on a screen has something to delete, and tells Backspace.
const SENTINEL = '\u200b';

/** Hears the keys of an element that takes text, and tells each press and release as `send(keysym, isPressed)`. */
export class Keyboard {
  #field;
  #send;
  #act;
  #isMac;
  #isSelected;
  #paste;
  #isPasting = false;
  // By where the key is: the keysym that it was pressed with, so that the release names the same.
  #down = new Map();
  // The modifiers that are held for the next key alone, by buttons.
  #held = new Set();

  /**
   * @param {HTMLTextAreaElement} field
   * @param {(keysym: number, isPressed: boolean) => void} send
   * @param {(action: import('./keysyms.js').Action) => void} act does what the page itself does at a key
   * @param {{ isMac: boolean, isSelected: () => boolean, paste: (text: string) => void }} surroundings  whether Option
   *   makes characters, whether text is selected, and what takes a text that is pasted
   */
  constructor(field, send, act, { isMac, isSelected, paste }) {
    this.#field = field;
    this.#send = send;
    this.#act = act;
    this.#isMac = isMac;
    this.#isSelected = isSelected;
    this.#paste = paste;
    field.addEventListener('keydown', (event) => this.press(event));
    field.addEventListener('keyup', (event) => this.#release(event.code));
    field.addEventListener('compositionstart', () => field.classList.add('composing'));
    field.addEventListener('compositionupdate', (event) => { field.style.setProperty('--length', String(event.data.length + 1)); });
    field.addEventListener('compositionend', () => this.#takeField());
    field.addEventListener('input', (event) => { if (!(/** @type {InputEvent} */ (event).isComposing)) this.#takeField(); });
    // What is pasted falls into the field, too. It may have come by Control, which is let go first.
    field.addEventListener('paste', () => {
      this.letGo();
      this.#isPasting = true;
    });
    // The browser tells no release of a key that is let go elsewhere.
    field.addEventListener('blur', () => this.letGo());
    this.#empty();
  }

  /** Takes a key that goes down, unless it is the browser's. @param {KeyboardEvent} event */
  press(event) {
    // An input method takes these, and gives its text when it is done.
    if (event.isComposing || event.keyCode === 229) return;
    const meaning = isControlC(event) && this.#isSelected() ? { action: /** @type {const} */ ('take') } : meaningOfKey(event, this.#isMac);
    if (meaning === 'browser') return;
    event.preventDefault();
    if (meaning === 'nothing') return;
    if ('action' in meaning) return this.#act(meaning.action);
    if (meaning.isBare) this.letGo();
    else this.#holdAsIn(event, meaning);
    this.#beginHeld(meaning.keysym);
    this.#down.set(event.code, meaning.keysym);
    this.#send(meaning.keysym, true);
    this.#endHeld(meaning.keysym);
  }

  /** Presses a key and lets it go. */
  tap(keysym) {
    this.#beginHeld(keysym);
    this.#send(keysym, true);
    this.#send(keysym, false);
    this.#endHeld(keysym);
  }

  /** Types a text, key by key. */
  type(text) {
    keysymsOf(text).forEach((keysym) => this.tap(keysym));
  }

  /** Holds Control or Alt for the next key, or no longer, and answers whether it is held. */
  hold(keysym) {
    if (this.#held.delete(keysym)) return false;
    this.#held.add(keysym);
    return true;
  }

  // Control and Alt may have gone down elsewhere.
  /** @param {KeyboardEvent} event @param {{ keysym: number, withAlt?: boolean }} meaning */
  #holdAsIn({ ctrlKey, altKey }, { keysym, withAlt }) {
    if (isModifier(keysym)) return;
    const down = [...this.#down.values()];
    if (ctrlKey && !down.some((it) => it === CONTROL || it === CONTROL + 1)) this.#held.add(CONTROL);
    if (withAlt || (altKey && !this.#isMac && !down.some((it) => it === ALT || it === ALT + 1))) this.#held.add(ALT);
  }

  #beginHeld(keysym) {
    if (!isModifier(keysym)) this.#held.forEach((it) => this.#send(it, true));
  }

  #endHeld(keysym) {
    if (isModifier(keysym) || this.#held.size === 0) return;
    this.#held.forEach((it) => this.#send(it, false));
    this.#held.clear();
    this.#field.dispatchEvent(new Event('free'));
  }

  #release(code) {
    const keysym = this.#down.get(code);
    if (keysym === undefined) return;
    this.#down.delete(code);
    this.#send(keysym, false);
  }

  /** Releases all keys that are down. */
  letGo() {
    [...this.#down.keys()].forEach((code) => this.#release(code));
  }

  // What stands in the field was made by an input method, a dead key or a keyboard on a screen.
  #takeField() {
    const { value } = this.#field;
    this.#empty();
    const text = value.replaceAll(SENTINEL, '');
    const isPasted = this.#isPasting;
    this.#isPasting = false;
    if (isPasted) this.#paste(text);
    // With Control held by a button, a letter is meant.
    else if (text !== '') this.type(this.#held.has(CONTROL) ? text.toLowerCase() : text);
    else if (value === '') this.tap(keysymNamed('Backspace'));
  }

  #empty() {
    this.#field.classList.remove('composing');
    this.#field.value = SENTINEL;
    this.#field.setSelectionRange(1, 1);
  }
}

/** Whether the browser pastes at a key. */
export const isPaste = ({ key, ctrlKey, metaKey, shiftKey }) => (key === 'Insert' ? shiftKey : key.toLowerCase() === 'v' && (metaKey || (ctrlKey && shiftKey)));

const isControlC = ({ key, ctrlKey, altKey, shiftKey, metaKey }) => key === 'c' && ctrlKey && !altKey && !shiftKey && !metaKey;
