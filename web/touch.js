// The keys that a keyboard on a screen hasn't, as buttons. Control and Alt hold for the next key.

import { ALT, CONTROL, keysymNamed } from './keysyms.js';

const HELD = { Control: CONTROL, Alt: ALT };

/** Lets the buttons of an element press the keys that their `data-key` names, by a keyboard whose field keeps the focus,
 *  and paste. */
export function buttonsOf(element, field, keyboard, paste) {
  const buttons = [...element.querySelectorAll('button')];
  // A button that takes the focus would hide the keyboard on the screen.
  element.addEventListener('pointerdown', (event) => event.preventDefault());
  element.addEventListener('mousedown', (event) => event.preventDefault());
  const press = async (button) => {
    const { key } = button.dataset;
    if (key === 'Paste') paste(await navigator.clipboard.readText().catch(() => ''));
    else if (key in HELD) button.setAttribute('aria-pressed', String(keyboard.hold(HELD[key])));
    else keyboard.tap(keysymNamed(key));
  };
  buttons.forEach((button) => button.addEventListener('click', () => press(button)));
  field.addEventListener('free', () => buttons.forEach((it) => { if (it.hasAttribute('aria-pressed')) it.setAttribute('aria-pressed', 'false'); }));
  const pasting = buttons.find((it) => it.dataset.key === 'Paste');
  // A page that isn't reached by HTTPS may not read the clipboard.
  if (pasting) pasting.hidden = !navigator.clipboard?.readText;
}
