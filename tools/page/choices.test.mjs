// Choices as the browser has kept them, or something else.
import assert from 'node:assert/strict';
import test from 'node:test';
import { module } from './page.mjs';

const { FIRST, choicesOf } = await module('choices');

for (const text of [null, '', '{', '7', '{"text":"other","size":11,"lines":-1,"speaks":"no","asks":1}']) test(`no choices: ${text}`, () => assert.deepEqual(choicesOf(text), FIRST));
test('choices come back', () => {
  const choices = { text: 'exact', size: 14, lines: 0, speaks: false, asks: false };
  assert.deepEqual(choicesOf(JSON.stringify(choices)), choices);
});
