// The cell of a screen that fits a room, and lines in cells of any size.
import assert from 'node:assert/strict';
import test from 'node:test';
import { module } from './page.mjs';

const { barred, cellFor, sizeFor } = await module('sharp');

test('a cell fits the room, in whole pixels, as large as it may be', () => {
  for (const [columns, rows] of [[80, 24], [132, 50], [40, 10], [512, 256], [1, 1]]) {
    for (const [width, height] of [[1000, 600], [1920, 1080], [400, 700], [3840, 2160]]) {
      const room = { width, height };
      const cell = cellFor({ columns, rows, room, wanted: 0, ratio: 0.6 });
      assert.ok(Number.isInteger(cell.width) && Number.isInteger(cell.height));
      assert.equal(cell.font, cell.width / 0.6);
      const name = `${columns} by ${rows} in ${width} by ${height}`;
      // The least cell has 2 pixels, so that a screen may be larger than its room.
      if (cell.width > 2) assert.ok(columns * cell.width <= width && rows * cell.height <= height, name);
      const larger = (cell.width + 1) * columns <= width && Math.ceil(((cell.width + 1) / 0.6) * 1.17) * rows <= height;
      assert.ok(!larger || (cell.width + 1) * Math.max(columns, 2 * rows) > 16000, name);
    }
  }
});

test('a font of a size that is wanted', () => {
  const cell = cellFor({ columns: 80, rows: 24, room: { width: 100, height: 100 }, wanted: 20, ratio: 0.6 });
  assert.deepEqual(cell, { width: 12, height: 26, font: 20 });
});

test('how many columns and rows a room has, within what a session may have', () => {
  const least = { columns: 80, rows: 24 };
  const cell = { width: 9, height: 19 };
  assert.deepEqual(sizeFor({ width: 963, height: 645 }, cell, least), { columns: 107, rows: 33 });
  assert.deepEqual(sizeFor({ width: 400, height: 100 }, cell, least), least);
  assert.deepEqual(sizeFor({ width: 400, height: 300 }, cell, { columns: 40, rows: 12 }), { columns: 44, rows: 15 });
  assert.deepEqual(sizeFor({ width: 9000, height: 9000 }, { width: 8, height: 16 }, least), { columns: 512, rows: 256 });
});

test('a screen that has what a room has fills it with cells of the size that was wanted', () => {
  for (const [width, height] of [[963, 645], [1383, 945], [1903, 1021], [3823, 2100]]) {
    const cell = cellFor({ columns: 1, rows: 1, room: { width, height }, wanted: 15, ratio: 0.602 });
    const size = sizeFor({ width, height }, cell, { columns: 80, rows: 24 });
    const shown = cellFor({ ...size, room: { width, height }, wanted: 0, ratio: 0.602 });
    assert.equal(shown.width, cell.width);
    assert.ok(shown.height >= cell.height && shown.height * size.rows <= height, `${width} by ${height}`);
  }
});

// The lengths of what is lit along a row or a column of a cell of 255s.
const runs = (cells) => [...cells].map((it) => (it ? 'x' : ' ')).join('').split(/ +/).filter(Boolean).map((it) => it.length);
const row = (cell, width, y) => cell.slice(y * width, (y + 1) * width);
const column = (cell, width, x) => cell.filter((_, k) => k % width === x);
const code = (character) => character.codePointAt(0);

const SIZES = [5, 6, 7, 8, 9, 10, 11, 12, 13, 16, 18, 24].flatMap((width) => [9, 11, 12, 16, 19, 24, 31, 48].map((height) => [width, height]));
const SIDES = { left: (cell, width) => column(cell, width, 0), right: (cell, width) => column(cell, width, width - 1), up: (cell, width) => row(cell, width, 0), down: (cell, width) => row(cell, width, cell.length / width - 1) };

test('a line is seen in a cell of any size, from edge to edge, and the two of a double one are equally thick', () => {
  for (const [width, height] of SIZES) {
    for (const [across, down, count] of [['─', '│', 1], ['━', '┃', 1], ['═', '║', 2]]) {
      const name = `${across} ${down} ${width} by ${height}`;
      const [lying, standing] = [across, down].map((it) => barred(code(it), width, height));
      const thick = [runs(column(lying, width, 0)), runs(row(standing, width, 0))];
      for (const it of thick) assert.deepEqual(it, Array(count).fill(it[0]), name);
      for (let x = 0; x < width; x++) assert.deepEqual(column(lying, width, x), column(lying, width, 0), name);
      for (let y = 0; y < height; y++) assert.deepEqual(row(standing, width, y), row(standing, width, 0), name);
    }
  }
});

test('what meets at the edge of a cell is lit on both sides, whatever its size', () => {
  for (const [width, height] of SIZES) {
    const edge = (face, side) => SIDES[side](barred(code(face), width, height), width);
    for (const [corners, across, down] of [['┌┐└┘', '─', '│'], ['┏┓┗┛', '━', '┃'], ['╔╗╚╝', '═', '║'], ['╭╮╰╯', '─', '│']]) {
      [...corners].forEach((face, k) => {
        const [side, other] = [k % 2 ? 'left' : 'right', k < 2 ? 'down' : 'up'];
        for (const [line, at] of [[across, side], [down, other]]) {
          const [found, wanted] = [edge(face, at), edge(line, at)];
          // In a cell smaller than the gateway's an arm may lie at another edge too.
          if (width < 8 || height < 16) assert.ok(wanted.every((it, k) => it <= found[k]), `${face} ${width} by ${height}`);
          else assert.deepEqual(found, wanted, `${face} ${width} by ${height}`);
        }
      });
    }
  }
});

test('in a cell of the gateway\'s size lines have its pixels', () => {
  const lit = (face) => barred(code(face), 8, 16);
  assert.deepEqual([...row(lit('║'), 8, 0)], [0, 0, 255, 0, 0, 255, 0, 0]);
  assert.deepEqual([...column(lit('═'), 8, 0)].map((it) => it / 255), [0, 0, 0, 0, 0, 0, 1, 0, 0, 1, 0, 0, 0, 0, 0, 0]);
});
