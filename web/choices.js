// What a person chooses of how the terminal is shown, kept by the browser from one visit to the next.

const KEY = 'guacgate';

/**
 * @typedef {object} Choices
 * @property {'sharp' | 'exact'} text  a font of the browser, or the gateway's pixels
 * @property {number} size  the size of the font in pixels of the page, or 0 for what fits the window
 * @property {number} lines  how many lines are kept above the screen
 * @property {boolean} speaks  whether new lines are said
 * @property {boolean} asks  whether it is asked before several lines are pasted
 */

/** @type {Choices} */
export const FIRST = { text: 'sharp', size: 0, lines: 10000, speaks: true, asks: true };

/** The sizes of the font that can be chosen, and the numbers of lines. */
export const SIZES = [0, 10, 12, 14, 16, 18, 20, 24, 28, 32];
export const LINES = [0, 1000, 10000, 50000];

/** Choices as they were kept; what isn't one counts as it does at first. @returns {Choices} */
export function choicesOf(text) {
  let kept = {};
  try { kept = JSON.parse(text) ?? {}; } catch { /* Another page of this address may have kept something else. */ }
  return {
    text: kept.text === 'exact' ? 'exact' : FIRST.text,
    size: SIZES.includes(kept.size) ? kept.size : FIRST.size,
    lines: LINES.includes(kept.lines) ? kept.lines : FIRST.lines,
    speaks: typeof kept.speaks === 'boolean' ? kept.speaks : FIRST.speaks,
    asks: typeof kept.asks === 'boolean' ? kept.asks : FIRST.asks,
  };
}

/** The choices that the browser has kept. */
export function kept() {
  try { return choicesOf(localStorage.getItem(KEY)); } catch { return FIRST; }
}

/** Keeps choices, where the browser lets pages do so. @param {Choices} choices */
export function keep(choices) {
  try { localStorage.setItem(KEY, JSON.stringify(choices)); } catch { /* They hold for this visit alone. */ }
}

/** Fills the form of the choices, and tells of each change. */
export function choose(form, choices, changed) {
  const options = (name, values, words) => form.elements[name].replaceChildren(...values.map((value) => new Option(words(value), String(value))));
  options('size', SIZES, (size) => (size === 0 ? 'fits the window' : `${size} pixels`));
  options('lines', LINES, (lines) => (lines === 0 ? 'none' : lines.toLocaleString('en')));
  const fill = () => {
    form.elements.text.value = choices.text;
    form.elements.size.value = String(choices.size);
    form.elements.lines.value = String(choices.lines);
    form.elements.speaks.checked = choices.speaks;
    form.elements.asks.checked = choices.asks;
  };
  const set = (next) => {
    choices = next;
    fill();
    keep(choices);
    changed(choices);
  };
  form.addEventListener('change', () => set({
    text: form.elements.text.value,
    size: Number(form.elements.size.value),
    lines: Number(form.elements.lines.value),
    speaks: form.elements.speaks.checked,
    asks: form.elements.asks.checked,
  }));
  fill();
  return { get now() { return choices; }, change: (part) => set({ ...choices, ...part }) };
}
