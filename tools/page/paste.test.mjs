// What is pasted at once, what is asked about, and what is too long.
import assert from 'node:assert/strict';
import test from 'node:test';
import { module } from './page.mjs';

const { MOST, Paster, sizeOf } = await module('paste');

class Asking extends EventTarget {
  returnValue = '';
  isOpen = false;
  elements = { h1: {}, pre: {}, input: { checked: false } };
  querySelector = (name) => this.elements[name];
  querySelectorAll = () => [this.elements.h1, this.elements.pre];
  showModal() { this.isOpen = true; }
  close(value = this.returnValue) {
    if (!this.isOpen) return;
    Object.assign(this, { isOpen: false, returnValue: value });
    this.dispatchEvent(new Event('close'));
  }
}

function paster() {
  const asking = new Asking();
  const [typed, told, choices] = [[], [], { asks: true }];
  const it = new Paster(asking, (text) => typed.push(text), (words) => told.push(words), () => choices.asks, () => { choices.asks = false; });
  return { it, asking, typed, told };
}

test('lines, of which a finished one begins no other', () => {
  assert.deepEqual(['', 'a', 'a\n', 'a\r\nb', 'a\rb\n', '\n\n'].map((text) => sizeOf(text).lines), [0, 1, 1, 2, 2, 2]);
  assert.equal(sizeOf('é€😀').bytes, 9);
});

test('one line is typed', () => {
  const { it, asking, typed } = paster();
  it.paste('ls\n');
  assert.deepEqual([typed, asking.isOpen], [['ls\n'], false]);
});

test('several are asked about', () => {
  for (const [answer, wanted] of [['paste', ['a\nb\nc']], ['', []]]) {
    const { it, asking, typed } = paster();
    it.paste('a\nb\nc');
    assert.deepEqual([typed, asking.elements.h1.textContent, asking.elements.pre.textContent], [[], 'Paste 3 lines?', 'a\nb\nc']);
    asking.close(answer);
    assert.deepEqual(typed, wanted);
  }
});

test('they are no longer asked about where nobody wants it', () => {
  const { it, asking, typed } = paster();
  it.paste('a\nb');
  asking.elements.input.checked = true;
  asking.close('paste');
  it.paste('c\nd');
  assert.deepEqual([typed, asking.isOpen], [['a\nb', 'c\nd'], false]);
});

test('a question that is taken back pastes nothing', () => {
  const { it, asking, typed } = paster();
  it.paste('a\nb');
  it.forget();
  assert.deepEqual([typed, asking.isOpen], [[], false]);
});

test('what is too long is told, and no part of it pasted', () => {
  const { it, typed, told } = paster();
  it.paste('€'.repeat(MOST / 3));
  it.paste('a'.repeat(MOST));
  assert.deepEqual(typed.map((text) => text.length), [MOST / 3, MOST].map(Math.floor));
  it.paste(`${'a'.repeat(MOST)}b`);
  assert.deepEqual([typed.length, told.length], [2, 1]);
  assert.match(told[0], /262,145 bytes, and at most 262,144/);
});
