// When a session is told the size of a window, with a clock that isn't real.
import assert from 'node:assert/strict';
import test from 'node:test';
import { clock, module } from './page.mjs';

const { Follow } = await module('follow');
const [SMALL, MIDDLE, LARGE] = [[80, 24], [100, 30], [132, 50]].map(([columns, rows]) => ({ columns, rows }));

function follow({ opened = null, isOn = true, room = SMALL } = {}) {
  const told = [];
  const { timers, pass } = clock();
  const it = new Follow((size) => told.push(size), timers);
  it.fits(room);
  it.begin(opened);
  it.isOn = isOn;
  return { told, pass, it };
}

test('a session that is joined gets the window’s size, once it is shown and the window has rested', () => {
  const { told, pass, it } = follow();
  pass(1000);
  assert.deepEqual(told, []);
  it.shows(LARGE);
  pass(199);
  assert.deepEqual(told, []);
  pass(1);
  assert.deepEqual(told, [SMALL]);
  it.shows(SMALL);
  pass(1000);
  assert.deepEqual(told, [SMALL]);
});

test('one that was opened with the window’s size is told nothing', () => {
  const { told, pass, it } = follow({ opened: SMALL });
  it.shows(SMALL);
  pass(1000);
  assert.deepEqual(told, []);
});

test('a window that changes all the time is told once it rests, with its last size', () => {
  const { told, pass, it } = follow({ opened: SMALL });
  it.shows(SMALL);
  for (let columns = 81; columns < 120; columns++) {
    it.fits({ columns, rows: 24 });
    pass(50);
  }
  assert.deepEqual(told, []);
  pass(200);
  assert.deepEqual(told, [{ columns: 119, rows: 24 }]);
});

test('a window that comes back to its size before it rests is told nothing', () => {
  const { told, pass, it } = follow({ opened: SMALL });
  it.shows(SMALL);
  it.fits(LARGE);
  pass(100);
  it.fits(SMALL);
  pass(1000);
  assert.deepEqual(told, []);
});

test('one that comes back while its size is on its way is told again', () => {
  const { told, pass, it } = follow({ opened: SMALL });
  it.shows(SMALL);
  it.fits(LARGE);
  pass(200);
  it.fits(SMALL);
  pass(200);
  assert.deepEqual(told, [LARGE, SMALL]);
});

test('another’s size stands until the own window changes', () => {
  const { told, pass, it } = follow({ opened: SMALL });
  it.shows(SMALL);
  pass(1000);
  it.shows(LARGE);
  it.fits(SMALL);
  pass(1000);
  assert.deepEqual(told, []);
  it.fits(MIDDLE);
  pass(200);
  assert.deepEqual(told, [MIDDLE]);
});

test('two windows, of which the one that changed last counts, and which don’t answer each other', () => {
  const pages = [follow({ room: SMALL }), follow({ room: LARGE })];
  let [size, sent] = [MIDDLE, 0];
  const settle = () => {
    for (let turn = 0; turn < 20; turn++) {
      for (const { told, pass, it } of pages) {
        it.shows(size);
        pass(100);
        if (told.length > 0) { size = told.pop(); sent++; }
      }
    }
  };
  settle();
  assert.deepEqual([size, sent], [LARGE, 2]);
  pages[0].it.fits(MIDDLE);
  settle();
  assert.deepEqual([size, sent], [MIDDLE, 3]);
});

test('where the size is kept nothing is told, until it is no longer', () => {
  const { told, pass, it } = follow({ isOn: false });
  it.shows(LARGE);
  it.fits(MIDDLE);
  pass(1000);
  assert.deepEqual(told, []);
  it.isOn = true;
  pass(200);
  assert.deepEqual(told, [MIDDLE]);
});

test('what waits for a rest is dropped where the size is kept then', () => {
  const { told, pass, it } = follow({ opened: SMALL });
  it.shows(SMALL);
  it.fits(LARGE);
  pass(100);
  it.isOn = false;
  pass(1000);
  assert.deepEqual(told, []);
});
