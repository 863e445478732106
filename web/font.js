// The gateway's font (docs/TERMINAL.md, "Font" and "Faces"), read backwards: from the pixels of a cell to its character.
// All pictures are different, so the reading is exact; a cell that shows none of them is a picture.

import { BARS, COLUMNS } from './faces.js';
import { pixelOf } from './palette.js';

/** How many pixels a cell has. */
export const CELL_WIDTH = 8;
export const CELL_HEIGHT = 16;

/** The face of a cell that shows the box, which stands for each character that the font hasn't. */
export const BOX = 0x7f;

/** The faces of the two halves of a character that takes two cells: together a box as wide as both. */
export const [LEFT, RIGHT] = [0x80, 0x81];

/** Whether a face is line drawing or a block element, which reach the edges of the cell. */
export const hasBars = (face) => face >= 0x2500 && face <= 0x259f;

// From U+0020 on, then the box and its halves, five columns each, bit r of a column for the pixel lines 2 + 2r and 3 + 2r.
const GLYPHS = `0000000000 00005F0000 0007000700 147F147F14 242A7F2A12 2313086462 3649552250 0005030000
001C224100 0041221C00 082A1C2A08 08083E0808 0050300000 0808080808 0060600000 2010080402
3E5149453E 00427F4000 4261514946 2141454B31 1814127F10 2745454539 3C4A494930 0171090503
3649494936 064949291E 0036360000 0056360000 0814224100 1414141414 0041221408 0201510906
324979413E 7E1111117E 7F49494936 3E41414122 7F4141221C 7F49494941 7F09090101 3E41415132
7F0808087F 00417F4100 2040413F01 7F08142241 7F40404040 7F0204027F 7F0408107F 3E4141413E
7F09090906 3E4151215E 7F09192946 4649494931 01017F0101 3F4040403F 1F2040201F 7F2018207F
6314081463 0304780403 6151494543 007F414100 0204081020 0041417F00 0402010204 4040404040
0001020400 2054545478 7F48444438 3844444420 384444487F 3854545418 087E090102 081454543C
7F08040478 00447D4000 2040443D00 7F10284400 00417F4000 7C04180478 7C08040478 3844444438
7C14141408 081414187C 7C08040408 4854545420 043F444020 3C4040207C 1C2040201C 3C4030403C
4428102844 0C5050503C 4464544C44 0008364100 00007F0000 0041360800 0804081008 7F4141417F
7F41414141 414141417F`.split(/\s+/);

// Where a face has its picture: five columns, of whose bits the first is that of the pixel lines 0 and 1, or bars.
/** @type {Map<number, number[]>} */
const columns = new Map();
GLYPHS.forEach((word, k) => columns.set(0x20 + k, bytesOf(word).map((column) => 2 * column)));
let next = 0;
for (const word of COLUMNS.split(/\s+/)) {
  if (word.length === 4) next = parseInt(word, 16);
  else columns.set(next++, bytesOf(word));
}
const bars = BARS.split(/\s+/);

function bytesOf(word) {
  return word.match(/../g).map((hex) => parseInt(hex, 16));
}

/** All faces. @returns {number[]} */
export const allFaces = () => [...columns.keys(), ...bars.map((_, k) => 0x2500 + k)];

/** The sixteen pixel lines of a face, of eight bits each, the leftmost pixel in bit 0. @returns {number[]} */
export function linesOf(face) {
  return hasBars(face) ? linesOfBars(bars[face - 0x2500]) : linesOfColumns(columns.get(face));
}

function linesOfColumns(five) {
  const lines = Array(CELL_HEIGHT).fill(0);
  for (let y = 0; y < CELL_HEIGHT; y++) for (let x = 0; x < 5; x++) lines[y] |= ((five[x] >> (y >> 1)) & 1) << (x + 1);
  return lines;
}

// (in a word the width and the height of a bar are less by 1)
const barsOfWord = (word) => word.match(/..../g).map((bar) => [...bar].map((hex, k) => parseInt(hex, 16) + (k >> 1)));

/** The bars of a face that has some: their left and upper pixel, width and height. @returns {number[][]} */
export const barsOf = (face) => barsOfWord(bars[face - 0x2500]);

function linesOfBars(word) {
  const lines = Array(CELL_HEIGHT).fill(0);
  for (const [x, y, width, height] of barsOfWord(word)) {
    for (let line = y; line < y + height; line++) lines[line] |= ((1 << width) - 1) << x;
  }
  return lines;
}

// The lines as a text, of one character for two. Of two pictures that are alike, of a face and an underlined one that has
// the last line already, the one that isn't underlined is told.
const textOf = (it) => String.fromCharCode(it[0] | it[1] << 8, it[2] | it[3] << 8, it[4] | it[5] << 8, it[6] | it[7] << 8, it[8] | it[9] << 8, it[10] | it[11] << 8, it[12] | it[13] << 8, it[14] | it[15] << 8);
/** @type {Map<string, { face: number, isUnderlined: boolean }>} */
const PICTURES = new Map();
for (const face of allFaces()) {
  const lines = linesOf(face);
  PICTURES.set(textOf(lines), { face, isUnderlined: false });
  if (lines[15] !== 0xff) PICTURES.set(textOf([...lines.slice(0, 15), 0xff]), { face, isUnderlined: true });
}

const BLACK = pixelOf([0, 0, 0]);
const LINES = new Uint8Array(CELL_HEIGHT);

// The colour of a cell that isn't that of its first pixel, or that where all have it; LINES then tells which pixels have
// the other. It is 0 where there are more colours.
function otherAt(pixels, at, width) {
  const first = pixels[at];
  let other = first;
  for (let y = 0; y < CELL_HEIGHT; y++, at += width) {
    let line = 0;
    for (let x = 0; x < CELL_WIDTH; x++) {
      const pixel = pixels[at + x];
      if (pixel === first) continue;
      if (other === first) other = pixel;
      else if (pixel !== other) return 0;
      line |= 1 << x;
    }
    LINES[y] = line;
  }
  return other;
}

function exchange() {
  for (let y = 0; y < CELL_HEIGHT; y++) LINES[y] ^= 0xff;
  return LINES;
}

/**
 * What the cell shows whose first pixel has this place in the pixels of a layer of this width: its face, its ink and
 * paper as pixels, and whether it is underlined; or null where it shows none of the font's pictures. A cell of one colour
 * is a blank, whose ink is the paper, for nothing of it is seen. Where two faces are each other's picture in exchanged
 * colours, as the upper and the lower half, the one on black is told, or else the one on the first pixel's colour.
 * @returns {{ face: number, ink: number, paper: number, isUnderlined: boolean } | null}
 */
export function seenAt(pixels, at, width) {
  const [first, other] = [pixels[at], otherAt(pixels, at, width)];
  if (first === 0 || other === 0) return null;
  if (other === first) return { face: 0x20, ink: first, paper: first, isUnderlined: false };
  const onFirst = PICTURES.get(textOf(LINES));
  const seen = (picture, ink, paper) => picture && { face: picture.face, ink, paper, isUnderlined: picture.isUnderlined };
  if (onFirst !== undefined && other !== BLACK) return seen(onFirst, other, first);
  return seen(PICTURES.get(textOf(exchange())), first, other) ?? seen(onFirst, other, first) ?? null;
}
