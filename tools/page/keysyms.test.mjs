// What keys mean, by the table of docs/PROTOCOL.md ("Keys") and web/README.md.
import assert from 'node:assert/strict';
import test from 'node:test';
import { module } from './page.mjs';

const { keysymsOf, meaningOfKey } = await module('keysyms');

test('a text as keys', () => assert.deepEqual(keysymsOf('a\r\né€\t\u0007'), [0x61, 0xff0d, 0xe9, 0x010020ac, 0xff09]));

/** An event of a key, with the modifiers that its words name: `C` Control, `A` Alt, `S` Shift, `M` Meta, `G` AltGr. */
const event = (held, key, code = '') => ({ key, code, ctrlKey: held.includes('C'), altKey: held.includes('A'), shiftKey: held.includes('S'), metaKey: held.includes('M'), getModifierState: (name) => name === 'AltGraph' && held.includes('G') });

const table = [
  ['', 'a', 'KeyA', { keysym: 0x61 }], ['S', 'A', 'KeyA', { keysym: 0x41 }], ['', '€', 'KeyE', { keysym: 0x010020ac }],
  ['', 'Enter', 'Enter', { keysym: 0xff0d }], ['', 'Backspace', 'Backspace', { keysym: 0xff08 }], ['', 'ArrowUp', 'ArrowUp', { keysym: 0xff52 }], ['', 'F12', 'F12', { keysym: 0xffc9 }], ['', 'F5', 'F5', { keysym: 0xffc2 }],
  ['C', 'Control', 'ControlRight', { keysym: 0xffe4 }], ['A', 'Alt', 'AltLeft', { keysym: 0xffe9 }], ['S', 'Shift', 'ShiftLeft', 'browser'],
  ['', 'Dead', 'BracketLeft', 'browser'], ['', 'AudioVolumeUp', '', 'browser'], ['', 'Unidentified', '', 'browser'],
  // Control: what has a code is sent, and all else, as zoom and the numbers of tabs, is the browser's.
  ['C', 'a', 'KeyA', { keysym: 0x61 }], ['C', 'r', 'KeyR', { keysym: 0x72 }], ['C', ' ', 'Space', { keysym: 0x20 }], ['C', '[', 'BracketLeft', { keysym: 0x5b }], ['C', '?', 'Slash', { keysym: 0x3f }],
  ['CS', '_', 'Minus', { keysym: 0x5f }], ['CS', '@', 'Digit2', { keysym: 0x40 }], ['CS', '^', 'Digit6', { keysym: 0x5e }], ['C', 'ф', 'KeyA', { keysym: 0x61 }],
  ['C', '+', 'Equal', 'browser'], ['C', '=', 'Equal', 'browser'], ['C', '-', 'Minus', 'browser'], ['C', '0', 'Digit0', 'browser'], ['C', '1', 'Digit1', 'browser'], ['C', '/', 'Slash', 'browser'],
  ['CS', 'R', 'KeyR', 'browser'], ['C', 'F5', 'F5', 'browser'], ['CS', 'I', 'KeyI', 'browser'], ['M', 'r', 'KeyR', 'browser'], ['M', 'c', 'KeyC', 'browser'],
  ['CS', 'C', 'KeyC', { action: 'copy' }], ['CS', 'V', 'KeyV', 'browser'], ['S', 'Insert', 'Insert', 'browser'], ['CS', 'L', 'KeyL', { action: 'hush' }],
  ['C', 'F6', 'F6', { action: 'leave' }], ['CS', 'Escape', 'Escape', { action: 'leave' }], ['', 'F6', 'F6', { keysym: 0xffc3 }], ['', 'Escape', 'Escape', { keysym: 0xff1b }],
  // The table has no Shift-Tab and no arrow with Control or Shift, and they aren't sent as Tab and arrows.
  ['', 'Tab', 'Tab', { keysym: 0xff09 }], ['S', 'Tab', 'Tab', 'nothing'], ['C', 'Tab', 'Tab', 'browser'], ['C', 'ArrowLeft', 'ArrowLeft', 'browser'], ['S', 'ArrowLeft', 'ArrowLeft', 'nothing'],
  ['A', 'ArrowLeft', 'ArrowLeft', { keysym: 0xff51 }], ['S', 'Enter', 'Enter', { keysym: 0xff0d }], ['C', 'Backspace', 'Backspace', { keysym: 0xff08 }], ['S', 'F10', 'F10', 'browser'],
  ['S', 'PageUp', 'PageUp', { action: 'pageUp' }], ['S', 'PageDown', 'PageDown', { action: 'pageDown' }], ['S', 'Home', 'Home', { action: 'toTop' }], ['S', 'End', 'End', { action: 'toEnd' }], ['CS', 'ArrowUp', 'ArrowUp', { action: 'lineUp' }],
  ['CAG', '@', 'KeyQ', { keysym: 0x40, isBare: true }], ['A', 'x', 'KeyX', { keysym: 0x78 }], ['CA', 'x', 'KeyX', { keysym: 0x78 }],
];
for (const [held, key, code, meaning] of table) test(`the key ${held} ${key}`, () => assert.deepEqual(meaningOfKey(event(held, key, code), false), meaning));

test('Option on a Mac makes its character', () => assert.deepEqual(meaningOfKey(event('A', 'å', 'KeyA'), true), { keysym: 0xe5, isBare: true }));
test('Option on a Mac sends nothing by itself', () => assert.equal(meaningOfKey(event('A', 'Alt', 'AltLeft'), true), 'browser'));
test('Option goes with named keys as Alt', () => assert.deepEqual(meaningOfKey(event('A', 'ArrowLeft', 'ArrowLeft'), true), { keysym: 0xff51, withAlt: true }));
