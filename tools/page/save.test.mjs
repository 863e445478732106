// The lines of a terminal as a file of text.
import assert from 'node:assert/strict';
import test from 'node:test';
import { module } from './page.mjs';

const { linesIn } = await module('save');
const element = (...lines) => ({ querySelectorAll: (names) => (names === '.line, .gap' ? lines.map((textContent) => ({ textContent })) : []) });

test('lines without the blanks at their ends, and without the empty ones behind the last', () => {
  assert.equal(linesIn(element('$ ls  ', '', '  a', 'Lines may be missing here.', 'b', '', '   ')), '$ ls\n\n  a\nLines may be missing here.\nb\n');
});
