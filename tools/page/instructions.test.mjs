// Instructions as text: lengths count characters, of which some have two units and several bytes.
import assert from 'node:assert/strict';
import test from 'node:test';
import { module } from './page.mjs';

const { Reader, Unreadable, textOf } = await module('instructions');
const TEXT = '4.name,1.é,3.😀,;,0.;4.sync,2.17;';
const READ = [['name', 'é', '😀,;', ''], ['sync', '17']];

test('elements', () => assert.deepEqual(new Reader().read(TEXT), READ));
test('a text', () => assert.equal(textOf('name', 'é😀'), '4.name,2.é😀;'));

test('what comes in two pieces is read once it is whole, wherever it is cut', () => {
  for (let at = 0; at <= TEXT.length; at++) {
    const reader = new Reader();
    const read = [...reader.read(TEXT.slice(0, at)), ...reader.read(TEXT.slice(at))];
    assert.deepEqual([read, reader.isWhole], [READ, true], `cut at ${at}`);
  }
});

test('what comes by single units is read too', () => {
  const reader = new Reader();
  assert.deepEqual([...TEXT.matchAll(/[^]/g)].flatMap(([unit]) => reader.read(unit)), READ);
});

for (const text of ['4.name', '4.name,', '4.nam', '4']) {
  test(`unfinished: ${text}`, () => {
    const reader = new Reader();
    assert.deepEqual([reader.read(text), reader.isWhole], [[], false]);
  });
}
for (const text of ['x.name;', '4name;', '4.name1.;', '123456.', '.;']) {
  test(`unreadable: ${text}`, () => assert.throws(() => new Reader().read(text), Unreadable));
}
