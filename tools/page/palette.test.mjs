// Colours: the contrast of each ink on each paper, by WCAG 2.1, and the gateway's own where it is enough.
import assert from 'node:assert/strict';
import test from 'node:test';
import { module } from './page.mjs';

const { LEAST_CONTRAST, contrast, indexOf, inkColour, paperColour } = await module('palette');

test('contrasts of WCAG 2.1', () => {
  assert.equal(contrast([0, 0, 0], [255, 255, 255]), 21);
  assert.ok(Math.abs(contrast([119, 119, 119], [255, 255, 255]) - 4.48) < 0.005);
  // Blue on black, as the gateway draws it.
  assert.ok(Math.abs(contrast([0, 0, 170], [0, 0, 0]) - 1.58) < 0.01);
});

test('each ink is legible on each other paper', () => {
  for (let ink = 0; ink < 16; ink++) {
    for (let paper = 0; paper < 16; paper++) if (ink !== paper) assert.ok(contrast(inkColour(ink, paper), paperColour(paper)) >= LEAST_CONTRAST, `${ink} on ${paper}`);
  }
});

test('what is legible stays as it is', () => {
  assert.deepEqual(inkColour(7, 0), [170, 170, 170]);
  assert.deepEqual(inkColour(0, 7), [0, 0, 0]);
});

test('colours past the sixteen', () => {
  const index = indexOf(0xff030201);
  assert.deepEqual([index, paperColour(index), indexOf(0xff030201)], [16, [1, 2, 3], 16]);
  let last = index;
  for (let k = 0; k < 300; k++) last = indexOf((0xff000000 | (k + 70000)) >>> 0);
  assert.equal(last, -1);
  assert.equal(indexOf(0xffaaaaaa), 7);
});
