// Colours: the sixteen of the gateway (docs/TERMINAL.md, "Palette") and others as they are seen, and what makes text
// legible on its paper.

const SIXTEEN = [0x000000, 0xaa0000, 0x00aa00, 0xaa5500, 0x0000aa, 0xaa00aa, 0x00aaaa, 0xaaaaaa, 0x555555, 0xff5555, 0x55ff55, 0xffff55, 0x5555ff, 0xff55ff, 0x55ffff, 0xffffff];

/** The least contrast of text on its paper, by the measure of WCAG 2.1 for text of any size. */
export const LEAST_CONTRAST = 4.5;

/** @typedef {[red: number, green: number, blue: number]} Colour */

/** A colour as a pixel of a canvas's memory. @param {Colour} colour */
export const pixelOf = ([red, green, blue]) => ((255 << 24) | (blue << 16) | (green << 8) | red) >>> 0;
/** @returns {Colour} */
const colourOf = (pixel) => [pixel & 255, (pixel >> 8) & 255, (pixel >> 16) & 255];

const colours = SIXTEEN.map((it) => /** @type {Colour} */ ([it >> 16, (it >> 8) & 255, it & 255]));
const indices = new Map(colours.map((colour, index) => [pixelOf(colour), index]));

/** The index of a pixel's colour. A new colour gets the next one; past 256 of them it is -1. */
export function indexOf(pixel) {
  const index = indices.get(pixel);
  if (index !== undefined) return index;
  if (colours.length === 256) return -1;
  indices.set(pixel, colours.length);
  return colours.push(colourOf(pixel)) - 1;
}

/** The colour of an index. @returns {Colour} */
export const paperColour = (index) => colours[index];

// The relative luminance of WCAG 2.1.
function luminance(colour) {
  const [red, green, blue] = colour.map((it) => (it <= 10 ? it / 255 / 12.92 : ((it / 255 + 0.055) / 1.055) ** 2.4));
  return 0.2126 * red + 0.7152 * green + 0.0722 * blue;
}

/** The contrast of two colours, 1 to 21. @param {Colour} one @param {Colour} other */
export function contrast(one, other) {
  const [less, more] = [luminance(one), luminance(other)].sort((a, b) => a - b);
  return (more + 0.05) / (less + 0.05);
}

const BLACK = /** @type {Colour} */ ([0, 0, 0]);
const WHITE = /** @type {Colour} */ ([255, 255, 255]);
const lifted = new Map();

/** The colour of an ink on a paper: its own, or as little lighter or darker as gives it the least contrast. @returns {Colour} */
export function inkColour(ink, paper) {
  const key = ink * 256 + paper;
  let colour = lifted.get(key);
  if (colour === undefined) lifted.set(key, colour = lift(colours[ink], colours[paper]));
  return colour;
}

function lift(ink, paper) {
  const end = contrast(WHITE, paper) >= LEAST_CONTRAST ? WHITE : BLACK;
  for (let part = 0; part < 64; part++) {
    const colour = /** @type {Colour} */ (ink.map((it, k) => Math.round(it + ((end[k] - it) * part) / 64)));
    if (contrast(colour, paper) >= LEAST_CONTRAST) return colour;
  }
  return end;
}

/** A colour as CSS has it. @param {Colour} colour */
export const cssOf = (colour) => `rgb(${colour.join(',')})`;
