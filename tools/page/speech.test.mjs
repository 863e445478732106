// What a screen reader is told, with a clock and a region that aren't real.
import assert from 'node:assert/strict';
import test from 'node:test';
import { clock, module } from './page.mjs';

const { Speech, newPart } = await module('speech');

function speech() {
  const said = [];
  const { timers, pass } = clock();
  globalThis.document = { createElement: () => ({}) };
  const region = { replaceChildren: (...parts) => said.push(parts.map((it) => it.textContent)) };
  return { said, pass, it: new Speech(region, timers) };
}

test('what is new in a line', () => {
  assert.equal(newPart('$ ', '$ ls -l'), 'ls -l');
  assert.equal(newPart('abc', 'xyz '), 'xyz');
  assert.equal(newPart('abc', 'abc'), '');
});

test('lines are said once they have settled', () => {
  const { said, pass, it } = speech();
  it.note(['one', ''], []);
  pass(200);
  it.note(['one', 'two'], []);
  pass(200);
  assert.deepEqual(said, []);
  pass(100);
  assert.deepEqual(said, [['one', 'two']]);
});

test('a screen that never rests is said once a second, a screen of lines at most', () => {
  const { said, pass, it } = speech();
  for (let k = 0; k < 25; k++) {
    it.note([`line ${k + 1}`, `line ${k + 2}`], k > 0 ? [`line ${k}`] : []);
    pass(100);
  }
  assert.ok(said.length >= 2 && said.length <= 3, String(said.length));
  assert.ok(said.every((lines) => lines.length <= 2));
});

test('lines that went off the top are said too, and none twice', () => {
  const { said, pass, it } = speech();
  it.note(['one', 'two', 'three'], []);
  pass(300);
  it.note(['three', 'four', 'five'], ['one', 'two']);
  pass(300);
  assert.deepEqual(said, [['one', 'two', 'three'], ['four', 'five']]);
});

test('the echo of what is typed isn’t said', () => {
  const { said, pass, it } = speech();
  it.note(['$'], []);
  pass(300);
  for (const character of 'ls') it.typed(character);
  it.note(['$ ls'], []);
  pass(300);
  assert.deepEqual(said, [['$']]);
});

test('lines that another size cuts off aren’t said again', () => {
  const { said, pass, it } = speech();
  it.note(['one two three', 'four'], []);
  pass(300);
  it.cut(7);
  it.note(['one two'], []);
  pass(300);
  it.cut(20);
  it.note(['one two', 'five'], []);
  pass(300);
  assert.deepEqual(said, [['one two three', 'four'], ['five']]);
});

test('where it is off nothing is said, nor later', () => {
  const { said, pass, it } = speech();
  it.isOn = false;
  it.note(['one'], []);
  pass(2000);
  it.isOn = true;
  it.note(['one', 'two'], []);
  pass(2000);
  assert.deepEqual(said, [[], ['two']]);
});
