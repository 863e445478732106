// From keys of a browser to keysyms of the X Window System, as the gateway reads them (docs/PROTOCOL.md, "Keys").

const NAMED = {
  Backspace: 0xff08, Tab: 0xff09, Enter: 0xff0d, Escape: 0xff1b,
  Home: 0xff50, ArrowLeft: 0xff51, ArrowUp: 0xff52, ArrowRight: 0xff53, ArrowDown: 0xff54,
  PageUp: 0xff55, PageDown: 0xff56, End: 0xff57, Insert: 0xff63, Delete: 0xffff,
  F1: 0xffbe, F2: 0xffbf, F3: 0xffc0, F4: 0xffc1, F5: 0xffc2, F6: 0xffc3,
  F7: 0xffc4, F8: 0xffc5, F9: 0xffc6, F10: 0xffc7, F11: 0xffc8, F12: 0xffc9,
};

// By where the key is, since the left one and the right one are held each for itself. Shift changes nothing there.
const PLACES = { ControlLeft: 0xffe3, ControlRight: 0xffe4, AltLeft: 0xffe9, AltRight: 0xffea };

/** Control and Alt, which change what other keys send. */
export const { ControlLeft: CONTROL, AltLeft: ALT } = PLACES;

/** All of them. */
export const MODIFIERS = Object.values(PLACES);

/** Whether the keysym is Control or Alt. */
export const isModifier = (keysym) => MODIFIERS.includes(keysym);

/** The keysym of a key by its name, as Tab. */
export const keysymNamed = (name) => NAMED[name];

/** The keysym of a character, or null for a control character. */
export function keysymOf(character) {
  const code = character.codePointAt(0);
  if (code < 0x20 || (code >= 0x7f && code <= 0x9f)) return null;
  return code <= 0xff ? code : 0x01000000 + code;
}

/** The keysyms that type a text: a line break is Return, a tab is Tab, and other control characters are left out. */
export function keysymsOf(text) {
  return [...text.replace(/\r\n?/g, '\n')].map(typed).filter((keysym) => keysym !== null);
}

function typed(character) {
  if (character === '\n') return NAMED.Enter;
  if (character === '\t') return NAMED.Tab;
  return keysymOf(character);
}

/**
 * What the page itself does at a key.
 * @typedef {'copy' | 'take' | 'leave' | 'hush' | 'lineUp' | 'lineDown' | 'pageUp' | 'pageDown' | 'toTop' | 'toEnd'} Action
 */

/**
 * What a key means: a keysym that is sent, with `isBare` where no modifier goes with it and `withAlt` where Alt is sent
 * around it; an action of the page; `browser` for what is left to the browser; `nothing` for what the gateway's table of
 * keys hasn't, and which would be taken for another key.
 * @typedef {{ keysym: number, isBare?: boolean, withAlt?: boolean } | { action: Action } | 'browser' | 'nothing'} Meaning
 */

const LEAVING = ['Escape', 'F6'];
const SCROLLING = { PageUp: 'pageUp', PageDown: 'pageDown', Home: 'toTop', End: 'toEnd' };
const SCROLLING_BOTH = { ArrowUp: 'lineUp', ArrowDown: 'lineDown' };
// Those whose bytes are the same with Control or Shift on every terminal.
const EVER = ['Backspace', 'Enter', 'Escape', 'Delete'];

/** @param {KeyboardEvent} event @param {boolean} isMac whether Option makes characters, as on a Mac @returns {Meaning} */
export function meaningOfKey(event, isMac) {
  const { key, code } = event;
  if (event.metaKey) return 'browser';
  if (key === 'Control' || (key === 'Alt' && !isMac)) return code in PLACES ? { keysym: PLACES[code] } : 'browser';
  if (key === 'AltGraph' || key === 'Dead' || key === 'Process' || key === 'Unidentified') return 'browser';
  if ([...key].length === 1) return character(event, isMac);
  return named(event, isMac);
}

/** @returns {Meaning} */
function character(event, isMac) {
  const { key, code, ctrlKey, altKey, shiftKey } = event;
  const keysym = keysymOf(key);
  if (keysym === null) return 'browser';
  // AltGr makes a character, and on some systems is told as Control and Alt too.
  if (event.getModifierState('AltGraph') || (isMac && altKey && !ctrlKey)) return { keysym, isBare: true };
  if (!ctrlKey) return { keysym };
  // The letter of the key, where the layout has another alphabet.
  const letter = key > '~' ? /^Key([A-Z])$/.exec(code)?.[1].toLowerCase() : key;
  if (shiftKey && /^[a-z]$/i.test(letter ?? '')) return withControlAndShift(letter.toLowerCase());
  return letter !== undefined && /^[@-_a-z ?]$/.test(letter) ? { keysym: keysymOf(letter) } : 'browser';
}

/** @returns {Meaning} */
function withControlAndShift(letter) {
  if (letter === 'c') return { action: 'copy' };
  return letter === 'l' ? { action: 'hush' } : 'browser';
}

/** @returns {Meaning} */
function named({ key, ctrlKey, altKey, shiftKey }, isMac) {
  const keysym = NAMED[key];
  if (keysym === undefined) return 'browser';
  if (LEAVING.includes(key) && ctrlKey && shiftKey !== (key === 'F6')) return { action: 'leave' };
  if (EVER.includes(key)) return isMac && altKey ? { keysym, withAlt: true } : { keysym };
  if (ctrlKey && shiftKey && key in SCROLLING_BOTH) return { action: SCROLLING_BOTH[key] };
  if (shiftKey && !ctrlKey && key in SCROLLING) return { action: SCROLLING[key] };
  if (ctrlKey || (shiftKey && /^(Insert|F[0-9]+)$/.test(key))) return 'browser';
  if (shiftKey) return 'nothing';
  return isMac && altKey ? { keysym, withAlt: true } : { keysym };
}
