// Keys of a field that isn't real: presses and releases in their order, what an input method makes, and what keyboards
// on screens tell.
import assert from 'node:assert/strict';
import test from 'node:test';
import { module } from './page.mjs';

const { Keyboard, isPaste } = await module('keyboard');

class Field extends EventTarget {
  value = '';
  classList = new Set();
  style = { setProperty() {} };

  constructor() {
    super();
    this.classList.remove = this.classList.delete;
  }

  setSelectionRange() {}

  tell(type, told = {}) {
    const event = Object.assign(new Event(type, { cancelable: true }), { getModifierState: () => false, ctrlKey: false, altKey: false, shiftKey: false, metaKey: false }, told);
    this.dispatchEvent(event);
    return event.defaultPrevented;
  }
}

function keyboard({ isMac = false, selected = '' } = {}) {
  const [field, sent, acts, pasted] = [new Field(), [], [], []];
  const it = new Keyboard(field, (keysym, isPressed) => sent.push(`${isPressed ? '+' : '-'}${keysym.toString(16)}`), (action) => acts.push(action), { isMac, isSelected: () => selected !== '', paste: (text) => pasted.push(text) });
  return { field, sent, acts, pasted, it };
}

test('a key, and its release by where it is', () => {
  const { field, sent } = keyboard();
  assert.ok(field.tell('keydown', { key: 'A', code: 'KeyA', shiftKey: true }));
  field.tell('keyup', { key: 'a', code: 'KeyA' });
  assert.deepEqual(sent, ['+41', '-41']);
});

test('keys that are down when the focus goes are released', () => {
  const { field, sent } = keyboard();
  field.tell('keydown', { key: 'Control', code: 'ControlLeft', ctrlKey: true });
  field.tell('keydown', { key: 'c', code: 'KeyC', ctrlKey: true });
  field.tell('blur');
  assert.deepEqual(sent, ['+ffe3', '+63', '-ffe3', '-63']);
});

test('Control that went down elsewhere is held for the key', () => {
  const { field, sent } = keyboard();
  field.tell('keydown', { key: 'd', code: 'KeyD', ctrlKey: true });
  field.tell('keyup', { key: 'd', code: 'KeyD' });
  assert.deepEqual(sent, ['+ffe3', '+64', '-ffe3', '-64']);
});

test('a character of AltGr, which is told as Control and Alt, goes without them', () => {
  const { field, sent } = keyboard();
  field.tell('keydown', { key: 'Control', code: 'ControlLeft', ctrlKey: true });
  field.tell('keydown', { key: '@', code: 'KeyQ', ctrlKey: true, altKey: true, getModifierState: (name) => name === 'AltGraph' });
  assert.deepEqual(sent, ['+ffe3', '-ffe3', '+40']);
});

test('Option with an arrow is Alt and the arrow', () => {
  const { field, sent } = keyboard({ isMac: true });
  field.tell('keydown', { key: 'Alt', code: 'AltLeft', altKey: true });
  field.tell('keydown', { key: 'ArrowLeft', code: 'ArrowLeft', altKey: true });
  assert.deepEqual(sent, ['+ffe9', '+ff51', '-ffe9']);
});

test('Control-C copies where something is selected, and else is sent', () => {
  const press = { key: 'c', code: 'KeyC', ctrlKey: true };
  const selecting = keyboard({ selected: 'x' });
  selecting.field.tell('keydown', press);
  assert.deepEqual([selecting.acts, selecting.sent], [['take'], []]);
  const other = keyboard();
  other.field.tell('keydown', press);
  assert.deepEqual([other.acts, other.sent], [[], ['+ffe3', '+63', '-ffe3']]);
});

test('what is the browser’s is left to it, and what the table hasn’t is sent to nobody', () => {
  const { field, sent } = keyboard();
  assert.equal(field.tell('keydown', { key: '+', code: 'Equal', ctrlKey: true }), false);
  assert.equal(field.tell('keydown', { key: 'Tab', code: 'Tab', shiftKey: true }), true);
  assert.deepEqual(sent, []);
});

test('an input method’s keys are its own, and its text is typed once', () => {
  const { field, sent } = keyboard();
  field.tell('keydown', { key: 'Process', code: 'KeyN', keyCode: 229 });
  field.tell('compositionstart');
  assert.ok(field.classList.has('composing'));
  field.value += 'に';
  field.tell('compositionend', { data: 'に' });
  field.tell('input', { isComposing: false });
  assert.deepEqual(sent, ['+100306b', '-100306b']);
  assert.ok(!field.classList.has('composing'));
});

test('Backspace of a keyboard that tells no key', () => {
  const { field, sent } = keyboard();
  field.tell('keydown', { key: 'Unidentified', keyCode: 229 });
  field.value = '';
  field.tell('input', { isComposing: false });
  assert.deepEqual(sent, ['+ff08', '-ff08']);
});

test('what is pasted is handed on, behind the release of the Control that it came by', () => {
  const { field, sent, pasted, it } = keyboard();
  field.tell('keydown', { key: 'Control', code: 'ControlLeft', ctrlKey: true });
  field.tell('paste');
  field.value += 'a\nb';
  field.tell('input', { isComposing: false });
  assert.deepEqual([sent, pasted], [['+ffe3', '-ffe3'], ['a\nb']]);
  it.type('a\nb');
  assert.deepEqual(sent.slice(2), ['+61', '-61', '+ff0d', '-ff0d', '+62', '-62']);
});

test('a key that is held while all are let go is pressed anew for the next', () => {
  const { field, sent, it } = keyboard();
  field.tell('keydown', { key: 'Control', code: 'ControlLeft', ctrlKey: true });
  it.letGo();
  field.tell('keydown', { key: 'c', code: 'KeyC', ctrlKey: true });
  assert.deepEqual(sent, ['+ffe3', '-ffe3', '+ffe3', '+63', '-ffe3']);
});

test('a button holds Control for the next key alone', () => {
  const { field, sent, it } = keyboard();
  assert.equal(it.hold(0xffe3), true);
  field.value += 'C';
  field.tell('input', { isComposing: false });
  it.tap(0xff1b);
  assert.deepEqual(sent, ['+ffe3', '+63', '-63', '-ffe3', '+ff1b', '-ff1b']);
});

test('the ways to paste', () => {
  const key = (told) => isPaste({ ctrlKey: false, metaKey: false, shiftKey: false, ...told });
  assert.deepEqual([key({ key: 'V', ctrlKey: true, shiftKey: true }), key({ key: 'v', metaKey: true }), key({ key: 'Insert', shiftKey: true }), key({ key: 'v', ctrlKey: true }), key({ key: 'Insert' })], [true, true, true, false, false]);
});
