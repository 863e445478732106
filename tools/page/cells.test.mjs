// What stands in the cells: at every sync of every recording the text that `look` reads, and each cell what a slow
// reading of its pixels gives, which compares them with each picture of the font; all faces as `look` tells them; by
// hand, pictures of some, cells that show no picture of the font, lines that leave the screen, and lines that may be
// missing.
import assert from 'node:assert/strict';
import test from 'node:test';
import { framesOf, isBuilt, module, recordings, seen } from './page.mjs';

const { instructionsFrom } = await module('instructions');
const { Layers } = await module('layers');
const { CELL_HEIGHT, CELL_WIDTH, LEFT, RIGHT, allFaces, linesOf } = await module('font');
const { Cells, PICTURE, cellOf, cellsOf, textOf } = await module('cells');
const { indexOf } = await module('palette');

const ALL = allFaces();
const drawn = (face) => linesOf(face).map((line) => Array.from({ length: CELL_WIDTH }, (_, x) => (line >> x & 1 ? '#' : '.')).join(''));
const places = Array.from({ length: CELL_WIDTH * CELL_HEIGHT }, (_, k) => k);
const isLit = (face, isUnderlined, k) => (isUnderlined && k >> 3 === 15) || (linesOf(face)[k >> 3] >> (k & 7) & 1) === 1;

// Every picture as a text of 128 signs.
const PICTURES = new Map();
for (const isUnderlined of [false, true]) {
  for (const face of ALL) {
    const text = places.map((k) => (isLit(face, isUnderlined, k) ? '#' : '.')).join('');
    PICTURES.set(text, PICTURES.get(text) ?? { face, isUnderlined });
  }
}

// By the rules of `look`: first on the colour of the first pixel, but on black where one of the two is black.
function slowly({ pixels, width }, column, row) {
  const seen = places.map((k) => pixels[(row * CELL_HEIGHT + (k >> 3)) * width + column * CELL_WIDTH + (k & 7)]);
  const colours = [...new Set(seen)];
  if (colours.length > 2 || colours.includes(0)) return PICTURE;
  if (colours.length === 1) return cellOf(0x20, indexOf(colours[0]), indexOf(colours[0]), false);
  if (colours[1] === 0xff000000) colours.reverse();
  for (const [paper, ink] of [colours, [...colours].reverse()]) {
    const picture = PICTURES.get(seen.map((it) => (it === paper ? '.' : '#')).join(''));
    if (picture) return cellOf(picture.face, indexOf(ink), indexOf(paper), picture.isUnderlined);
  }
  return PICTURE;
}

function screen() {
  const cells = new Cells();
  cells.layers = new Layers(cells);
  return cells;
}

// Plays a text, and calls `atSync` with the stamp at each sync.
function play(cells, text, atSync = () => {}) {
  for (const { instruction } of instructionsFrom(text, 0)) {
    if (instruction[0] !== 'sync') { cells.layers.draw(instruction); continue; }
    cells.settle();
    atSync(instruction[1]);
  }
}

const shownBy = (cells) => Array.from({ length: cells.rows }, (_, y) => textOf(cells.row(y)));

test('the pictures of all faces are different, underlined or not', () => {
  assert.equal(new Set(ALL).size, 542);
  // Those that have the whole last line look underlined alike.
  const isFull = (face) => linesOf(face)[15] === 0xff;
  assert.equal(PICTURES.size, 2 * 542 - ALL.filter(isFull).length);
  for (const face of ALL) assert.ok(face < 2 ** 14);
});

for (const name of recordings) {
  test(`the text of ${name} at every sync`, { skip: !isBuilt && 'needs guacgate and look built' }, () => {
    const [cells, frames] = [screen(), framesOf(name)];
    let syncs = 0;
    play(cells, frames, (stamp) => {
      syncs++;
      assert.equal(`${shownBy(cells).join('\n')}\n`, seen(frames, 'stamp', stamp).toString(), `at ${stamp}`);
      cells.cells.forEach((cell, k) => assert.equal(cell, slowly(cells.layers.visible, k % cells.columns, Math.floor(k / cells.columns)), `cell ${k} at ${stamp}`));
      const { pixels, width, height } = cells.layers.visible;
      assert.deepEqual(cellsOf(pixels, width, height), cells.cells, `all of them at ${stamp}`);
    });
    assert.ok(syncs > 1);
  });
}

// Instructions by which a screen is painted without a buffer, or with one.
const BLACK = '1.0,1.0,1.0,3.255';
const GREY = '3.170,3.170,3.170,3.255';
const element = (value) => `${String(value).length}.${value}`;
const instruction = (...values) => `${values.map(element).join(',')};`;
const fill = (layer, colour) => `5.cfill,2.14,${element(layer)},${colour};`;
const paper = (layer, x, y, width, height, colour) => instruction('rect', layer, x, y, width, height) + fill(layer, colour);
function glyph(layer, x, y, face, ink = GREY, ground = BLACK, isUnderlined = false) {
  const lit = places.filter((k) => isLit(face, isUnderlined, k));
  const rects = lit.map((k) => instruction('rect', layer, x + (k & 7), y + (k >> 3), 1, 1)).join('');
  return paper(layer, x, y, 8, 16, ground) + (rects && rects + fill(layer, ink));
}
const copy = (from, x, y, width, height, to, toX, toY) => instruction('copy', from, x, y, width, height, 14, to, toX, toY);
const sync = (stamp) => instruction('sync', stamp);
const opening = (columns, rows) => instruction('size', 0, 8 * columns, 16 * rows) + paper(0, 0, 0, 8 * columns, 16 * rows, BLACK);
const write = (text, row) => [...text].map((it, x) => instruction('size', -1, 8, 16) + glyph(-1, 0, 0, it.charCodeAt(0)) + copy(-1, 0, 0, 8, 16, 0, 8 * x, 16 * row)).join('');
const rise = (columns, rows, lines) => copy(0, 0, 16 * lines, 8 * columns, 16 * (rows - lines), 0, 0, 0) + paper(0, 0, 16 * (rows - lines), 8 * columns, 16 * lines, BLACK);

test('cells that are painted without a buffer are read', () => {
  const cells = screen();
  play(cells, opening(3, 1) + glyph(0, 8, 0, 0x67) + sync(1));
  assert.deepEqual(shownBy(cells), [' g']);
});

test('a character that takes two cells is told as U+FFFD and a blank', () => {
  const cells = screen();
  play(cells, opening(4, 1) + glyph(0, 0, 0, 0x61) + glyph(0, 8, 0, LEFT) + glyph(0, 16, 0, RIGHT) + glyph(0, 24, 0, 0x62) + sync(1));
  assert.deepEqual(shownBy(cells), ['a\ufffd b']);
  const [above, side, gap] = [Array(2).fill('........'), Array(2), Array(10)];
  assert.deepEqual(drawn(LEFT), [...above, ...side.fill('.#####..'), ...gap.fill('.#......'), ...side.fill('.#####..')]);
  assert.deepEqual(drawn(RIGHT), [...above, ...side.fill('.#####..'), ...gap.fill('.....#..'), ...side.fill('.#####..')]);
});

// Drawn by hand, by the rules of docs/TERMINAL.md ("Faces").
const twice = (lines) => lines.flatMap((line) => [line, line]);
for (const [character, lines] of [
  ['\u253c', [...Array(7).fill('...##...'), ...Array(2).fill('########'), ...Array(7).fill('...##...')]],
  ['\u2554', [...Array(6).fill('........'), '..######', ...Array(2).fill('..#.....'), '..#..###', ...Array(6).fill('..#..#..')]],
  ['\u2501', [...Array(6).fill('........'), ...Array(4).fill('########'), ...Array(6).fill('........')]],
  ['\u256d', [...Array(7).fill('........'), '....####', '...#####', ...Array(7).fill('...##...')]],
  ['\u2572', twice(['#.......', '.#......', '..#.....', '...#....', '....#...', '.....#..', '......#.', '.......#'])],
  ['\u2590', Array(16).fill('....####')],
  ['\u2591', Array(4).fill(['##..##..', '##..##..', '........', '........']).flat()],
  ['\u00e9', twice(['........', '....#...', '...#....', '..###...', '.#...#..', '.#####..', '.#......', '..###...'])],
  ['\u2014', twice([...Array(4).fill('........'), '.####...', ...Array(3).fill('........')])],
  ['\u00c4', twice(['..#.#...', '........', '..###...', '.#...#..', '.#...#..', '.#####..', '.#...#..', '.#...#..'])],
  ['\u25a0', twice(['........', '........', ...Array(5).fill('.#####..'), '........'])],
]) test(`the picture of ${character}`, () => assert.deepEqual(drawn(character.charCodeAt(0)), lines));

// All faces, sixteen to a row.
const cellsOfAll = (...look) => opening(16, 34) + ALL.map((face, k) => glyph(0, 8 * (k % 16), 16 * (k >> 4), face, ...look)).join('') + sync(1);
const RED = '3.170,1.0,1.0,3.255';

test('each face is told, on black and on another colour, underlined and not', () => {
  for (const [ink, ground, inkIndex, groundIndex] of [[GREY, BLACK, 7, 0], [RED, GREY, 1, 7]]) {
    for (const isUnderlined of [false, true]) {
      const cells = screen();
      play(cells, cellsOfAll(ink, ground, isUnderlined));
      ALL.forEach((face, k) => {
        const cell = cells.cells[k];
        assert.equal(cell, slowly(cells.layers.visible, k % 16, k >> 4), `face ${face.toString(16)}`);
        // A full cell has one colour, and on another colour than black a face whose first pixel is lit may be told as
        // the one that has its other pixels.
        if (face === 0x2588 || (groundIndex !== 0 && (linesOf(face)[0] & 1) === 1)) return;
        const isBlank = face === 0x20 && !isUnderlined;
        const isLined = isUnderlined && linesOf(face)[15] !== 0xff;
        assert.equal(cell, cellOf(face, isBlank ? groundIndex : inkIndex, groundIndex, isLined), `face ${face.toString(16)}`);
      });
    }
  }
});

test('a face in exchanged colours is told, as under the cursor, but for halves of a cell that then are the other half', () => {
  const cells = screen();
  play(cells, cellsOfAll(BLACK, GREY));
  const other = ALL.filter((face, k) => face !== 0x20 && cells.cells[k] !== cellOf(face, 0, 7, false));
  assert.deepEqual(other.map((it) => String.fromCharCode(it)).join(''), '\u2580\u2584\u2587\u2588\u2589\u258c\u2590\u2591\u2593\u2594\u2595\u2596\u2597\u2598\u2599\u259a\u259b\u259c\u259d\u259e\u259f');
  assert.equal(cells.cells[ALL.indexOf(0x2580)], cellOf(0x2584, 7, 0, false));
});

test('all faces as `look` tells them', { skip: !isBuilt && 'needs guacgate and look built' }, () => {
  for (const look of [[GREY, BLACK], [BLACK, GREY], [RED, GREY], [GREY, BLACK, true]]) {
    const cells = screen();
    play(cells, cellsOfAll(...look));
    assert.equal(`${shownBy(cells).join('\n')}\n`, seen(cellsOfAll(...look), 'stamp', 1).toString());
  }
});

test('the text of a panel', () => {
  const cells = screen();
  play(cells, opening(6, 2) + write('\u250c\u00c9t\u00e9\u2510', 0) + write('\u2502\u2713 \u20ac\u2502', 1) + sync(1));
  assert.deepEqual(shownBy(cells), ['\u250c\u00c9t\u00e9\u2510', '\u2502\u2713 \u20ac\u2502']);
});

test('a buffer that is painted anew is read anew', () => {
  const cells = screen();
  play(cells, opening(2, 1) + write('a', 0) + sync(1) + write('b', 0) + sync(2));
  assert.deepEqual(shownBy(cells), ['b']);
});

test('a cell with one pixel more is a picture, and only that one', () => {
  for (const [x, y] of [[0, 0], [7, 3], [2, 15], [6, 8], [3, 5]]) {
    const cells = screen();
    play(cells, opening(3, 1) + write('aPb', 0) + paper(0, 8 + x, y, 1, 1, '3.255,1.0,1.0,3.255') + sync(1));
    assert.equal(cells.cells[1], PICTURE, `${x}, ${y}`);
    assert.deepEqual(shownBy(cells), ['a\u2592b']);
    assert.equal(slowly(cells.layers.visible, 1, 0), PICTURE);
  }
});

test('a part of a buffer, or a place between cells, leaves no cell known by it', () => {
  const cells = screen();
  play(cells, opening(3, 1) + write('abc', 0) + copy(-1, 0, 0, 4, 16, 0, 4, 0) + sync(1));
  cells.cells.forEach((cell, x) => assert.equal(cell, slowly(cells.layers.visible, x, 0)));
});

test('lines that leave the screen', () => {
  const cells = screen();
  play(cells, opening(4, 3) + write('one', 0) + write('two', 1) + write('3', 2) + sync(1));
  assert.deepEqual(cells.takeGone(), []);
  play(cells, rise(4, 3, 2) + write('four', 1) + sync(2) + rise(4, 3, 1) + sync(3));
  assert.deepEqual(cells.takeGone().map((it) => it && textOf(it)), ['one', 'two', '3']);
  assert.deepEqual(shownBy(cells), ['four', '', '']);
});

test('a screen that is drawn anew tells that lines may be missing', () => {
  const cells = screen();
  play(cells, opening(4, 3) + write('one', 0) + write('two', 1) + sync(1) + write('six ', 0) + write('7  ', 1) + sync(2));
  assert.deepEqual(cells.takeGone(), [null]);
  play(cells, write('two', 1) + sync(3));
  assert.deepEqual(cells.takeGone(), []);
});

test('a picture of the whole screen behind frames tells so, where it differs', () => {
  const cells = screen();
  play(cells, opening(4, 2) + write('one', 0) + sync(1));
  play(cells, instruction('size', 0, 32, 32) + write('one', 0) + sync(2));
  assert.deepEqual(cells.takeGone(), []);
  play(cells, instruction('size', 0, 32, 32) + write('six', 0) + sync(3));
  assert.deepEqual(cells.takeGone(), [null]);
});

test('a size that cuts rows with characters off tells that lines may be missing, and no other does', () => {
  const resized = (columns, rows) => instruction('size', 0, 8 * columns, 16 * rows);
  const cells = screen();
  play(cells, opening(4, 3) + write('one', 0) + write('two', 1) + sync(1) + resized(3, 2) + sync(2));
  assert.deepEqual([shownBy(cells), cells.takeGone()], [['one', 'two'], []]);
  play(cells, resized(3, 1) + sync(3));
  assert.deepEqual([shownBy(cells), cells.takeGone()], [['one'], [null]]);
  play(cells, resized(2, 1) + sync(4));
  assert.deepEqual([shownBy(cells), cells.takeGone()], [['on'], []]);
});

test('a picture of another size behind frames tells so, where its characters differ', () => {
  const cells = screen();
  play(cells, opening(4, 2) + write('one', 0) + sync(1) + opening(6, 3) + write('six', 0) + sync(2));
  assert.deepEqual([shownBy(cells), cells.takeGone()], [['six', '', ''], [null]]);
});

test('cells of another size are read where they stand, in the frame that has it and behind it', () => {
  const cells = screen();
  const frames = [
    opening(4, 3) + write('one', 0) + write('two', 1) + write('3', 2),
    instruction('size', 0, 48, 64) + paper(0, 32, 0, 16, 64, BLACK) + paper(0, 0, 48, 48, 16, BLACK) + write('more', 3) + rise(6, 4, 1) + write('end', 3),
    write('sixsix', 2) + copy(0, 0, 0, 16, 16, 0, 32, 48),
    instruction('size', 0, 16, 32) + write('x', 1),
  ];
  frames.forEach((frame, k) => {
    play(cells, frame + sync(k + 1));
    cells.cells.forEach((cell, at) => assert.equal(cell, slowly(cells.layers.visible, at % cells.columns, Math.floor(at / cells.columns)), `cell ${at} of frame ${k}`));
  });
  assert.deepEqual(shownBy(cells), ['tw', 'x']);
  // In each of the frames that have a size other characters stand, or some are cut off.
  assert.deepEqual(cells.takeGone().map((it) => it && textOf(it)), ['one', null, null]);
});

test('another size', () => {
  const cells = screen();
  play(cells, opening(4, 2) + write('one', 0) + sync(1) + instruction('size', 0, 48, 48) + paper(0, 32, 0, 16, 48, BLACK) + paper(0, 0, 32, 48, 16, BLACK) + sync(2));
  assert.deepEqual([cells.columns, cells.rows, ...shownBy(cells)], [6, 3, 'one', '', '']);
});

test('what may have changed', () => {
  const cells = screen();
  play(cells, opening(4, 3) + sync(1));
  assert.deepEqual(cells.takeDirty(), { x: 0, y: 0, width: 32, height: 48 });
  play(cells, write('a', 1) + sync(2));
  assert.deepEqual(cells.takeDirty(), { x: 0, y: 16, width: 8, height: 16 });
  assert.equal(cells.takeDirty().width, 0);
});
