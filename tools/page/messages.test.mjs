// Each end in words, and a button that offers what can work.
import assert from 'node:assert/strict';
import test from 'node:test';
import { module } from './page.mjs';

const { meaningOf, rightsOf, wayOn, wordsOf, wordsOfLink, wordsOfLinks } = await module('messages');
const [JOINED, OPENED] = [{ id: '$1' }, { hostname: 'h' }];

test('each status of docs/PROTOCOL.md has words of its own', () => {
  const words = [512, 513, 516, 517, 519, 523, 768, 771, 797].map((code) => meaningOf({ code, status: 400 }));
  assert.equal(new Set(words).size, 9);
  words.forEach((it) => assert.doesNotMatch(it, /status/));
});

test('a refusal without a code is told by its status', () => {
  assert.equal(meaningOf({ code: 0, status: 0 }), 'The connection to the gateway is lost.');
  assert.equal(meaningOf({ code: 0, status: 418 }), 'The gateway answered with status 418.');
});

test('a view that the gateway no longer knows isn’t told as one that never was', () => {
  const end = { by: 'refusal', code: 516, status: 404 };
  assert.equal(wordsOf(end, JOINED, false), 'There is no such session. It may be over.');
  assert.match(wordsOf(end, OPENED, true), /no longer knows/);
  assert.match(wordsOf(end, { ...JOINED, isLink: true }, false), /used up, was taken back/);
  assert.match(wordsOf(end, OPENED, false), /No session can be opened/);
});

const ways = [
  [{ by: 'host' }, JOINED, 'To the start'], [{ by: 'error', code: 523 }, JOINED, 'To the start'], [{ by: 'refusal', code: 516, status: 404 }, JOINED, 'To the start'],
  [{ by: 'refusal', code: 771, status: 403 }, JOINED, 'To the start'], [{ by: 'refusal', code: 0, status: 0 }, JOINED, 'Join again'], [{ by: 'refusal', code: 797, status: 429 }, JOINED, 'Join again'],
  [{ by: 'unreadable' }, JOINED, 'Join again'], [{ by: 'left' }, JOINED, 'Join again'], [{ by: 'refusal', code: 0, status: 401 }, JOINED, 'Log in'],
  [{ by: 'host' }, OPENED, 'Open another'], [{ by: 'refusal', code: 519, status: 502 }, OPENED, 'Open another'], [{ by: 'fault' }, OPENED, 'Open another'], [{ by: 'unreachable' }, OPENED, 'Open another'],
];
for (const [end, request, word] of ways) test(`behind ${JSON.stringify(end)}: ${word}`, () => assert.equal(wayOn(end, request).word, word));

test('how the link is', () => {
  assert.equal(wordsOfLink('open', true), '');
  for (const state of ['lost', 'unstable']) {
    assert.match(wordsOfLink(state, true), /kept for 10 seconds/);
    assert.doesNotMatch(wordsOfLink(state, false), /Keys/);
  }
  assert.match(wordsOf({ by: 'unreachable' }, OPENED, true), /can’t be reached from here/);
});

test('who may type', () => {
  assert.match(rightsOf({ id: '$1', readOnly: true }), /not sent/);
  assert.equal(rightsOf({ hostname: 'h' }, ''), 'You may type. Nobody else may join.');
  assert.equal(rightsOf({ hostname: 'h' }, '$1', false), 'You may type.');
  assert.notEqual(rightsOf({ id: '$1' }, '$1', true), rightsOf({ id: '$1' }, '$1', false));
});

test('why no link is made', () => {
  const words = (code, status, what = 'make') => wordsOfLinks({ code, status }, what);
  assert.equal(words(0, 404), 'Links can’t be made at this address.');
  assert.equal(words(516, 404), 'The gateway makes no links to this session.');
  assert.equal(words(517, 409), 'The gateway couldn’t name the link. Try again.');
  assert.equal(words(0, 0, 'revoke'), 'The connection to the gateway is lost. The link was not taken back.');
  assert.equal(words(0, 403), 'You may not do this. No link was made.');
});
