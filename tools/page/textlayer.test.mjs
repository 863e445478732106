// A text becomes another one by replacing what stands between their common beginning and end, and rows keep their
// elements as long as they are there.
import assert from 'node:assert/strict';
import test from 'node:test';
import { module } from './page.mjs';

const { TextLayer, rewrite } = await module('textlayer');
const { BLANK, cellOf } = await module('cells');

for (const [old, text, ...replaced] of [['abc', 'axc', 1, 1, 'x'], ['', 'abc', 0, 0, 'abc'], ['abc', '', 0, 3, ''], ['aaa', 'aaaa', 3, 0, 'a'], ['$ l', '$ ls', 3, 0, 's'], ['abab', 'ab', 2, 2, '']]) {
  test(`from "${old}" to "${text}"`, () => {
    const did = [];
    rewrite({ data: old, replaceData: (...given) => did.push(...given) }, text);
    assert.deepEqual(did, replaced);
  });
}

// An element and its children, as far as rows need them.
class Element {
  children = [];
  append(...added) { for (const it of added) this.#take(it); }
  #take(it) {
    if (typeof it === 'string') { this.firstChild = { data: it, replaceData(at, count, text) { this.data = this.data.slice(0, at) + text + this.data.slice(at + count); } }; return; }
    it.remove?.();
    this.children.push(it);
    it.remove = () => { this.children.splice(this.children.indexOf(it), 1); };
  }
  get lastElementChild() { return this.children.at(-1); }
}

const cellsOf = (lines, columns) => Int32Array.from(lines.flatMap((line) => [...line.padEnd(columns)].map((it) => (it === ' ' ? BLANK : cellOf(it.charCodeAt(0), 7, 0, false)))));

test('rows that stay keep their elements at another size', () => {
  globalThis.document = { createElement: () => new Element() };
  const element = new Element();
  const layer = new TextLayer(element);
  const shown = () => element.children.map((it) => it.firstChild.data);
  layer.show(cellsOf(['one two', 'three', 'four'], 8), 8, 0);
  const [first, second, third] = element.children;
  layer.show(cellsOf(['one', 'thre'], 4), 4, 0);
  assert.deepEqual(shown(), ['one', 'thre']);
  assert.deepEqual(layer.lines, ['one', 'thre']);
  assert.ok(element.children[0] === first && element.children[1] === second);
  layer.show(cellsOf(['one', 'thre', '', 'end'], 10), 10, 0);
  assert.deepEqual(shown(), ['one', 'thre', '', 'end']);
  assert.ok(element.children[0] === first && element.children[1] === second && !element.children.includes(third));
  layer.show(cellsOf(['thre', '', 'end', 'new', ''], 12), 12, 1);
  assert.deepEqual(shown(), ['thre', '', 'end', 'new', '']);
  assert.ok(element.children[0] === second);
});
