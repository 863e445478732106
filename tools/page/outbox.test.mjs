// What is sent, and in which order, while a link comes and goes.
import assert from 'node:assert/strict';
import test from 'node:test';
import { module } from './page.mjs';

const { Outbox } = await module('outbox');
const { Refusal } = await module('tunnel');
const RELEASES = ['5.65507', '5.65508', '5.65513', '5.65514'].map((it) => `3.key,${it},1.0;`).join('');

function outbox(t) {
  const [told, timers] = [[], []];
  t.mock.method(globalThis, 'setTimeout', (act, time) => timers.push({ act, time }));
  t.mock.method(globalThis, 'clearTimeout', (timer) => { if (timer) timers[timer - 1] = undefined; });
  const it = new Outbox({ lost: () => told.push('lost'), thrown: () => told.push('thrown') });
  return { it, told, timers };
}

/** A tunnel that ends what is sent as it is told. */
function tunnel(...ends) {
  const sent = [];
  return { state: 'open', most: 1, sent, send(text) { sent.push(text); const end = ends.shift(); return end instanceof Error ? Promise.reject(end) : (end ?? Promise.resolve()); } };
}

const settled = async () => { for (let n = 0; n < 20; n++) await null; };

test('what waits while something is sent goes together behind it', async (t) => {
  const { it } = outbox(t);
  let release;
  const link = tunnel(new Promise((end) => { release = end; }));
  it.use(link);
  for (const text of 'abc') it.add(text, true);
  assert.deepEqual(link.sent, ['a']);
  release();
  await settled();
  assert.deepEqual(link.sent, ['a', 'bc']);
});

test('a tunnel has as many texts on their way as it takes, none of more than 4,095 instructions', async (t) => {
  const { it, told } = outbox(t);
  const ends = [];
  const link = tunnel(...Array.from({ length: 3 }, () => new Promise((_, fail) => ends.push(() => fail(new Refusal(0, 0))))));
  link.most = 2;
  it.use(link);
  for (let n = 0; n < 4098; n++) it.add(`${n};`, true);
  assert.deepEqual(link.sent, ['0;', '1;']);
  ends[0]();
  await settled();
  assert.deepEqual([link.sent.length, link.sent[2].split(';').length - 1], [3, 4095]);
  link.state = 'closed';
  ends[1]();
  ends[2]();
  await settled();
  assert.deepEqual([link.sent.length, told], [3, ['lost', 'lost', 'lost']]);
  const next = tunnel();
  it.use(next);
  it.turn();
  await settled();
  assert.deepEqual(next.sent, [`${RELEASES}${[4093, 4094, 4095, 4096, 4097].map((it) => `${it};`).join('')}`]);
});

test('keys that are typed without a link are sent by the next one, and what was for the last one isn’t', async (t) => {
  const { it, told, timers } = outbox(t);
  for (const text of 'ab') it.add(text, true);
  it.add('sync');
  assert.deepEqual(timers.map(({ time }) => time), [10000]);
  const link = tunnel();
  it.use(link);
  it.release();
  it.turn();
  await settled();
  assert.deepEqual([link.sent, told], [[`${RELEASES}ab`], []]);
  assert.deepEqual(timers, [undefined]);
});

test('they are thrown away after 10 seconds, and so are those behind them', async (t) => {
  const { it, told, timers } = outbox(t);
  it.add('a', true);
  timers[0].act();
  it.add('b', true);
  const link = tunnel();
  it.use(link);
  it.turn();
  it.add('c', true);
  await settled();
  assert.deepEqual([link.sent, told], [[RELEASES, 'c'], ['thrown']]);
});

test('what may have come isn’t sent again, and modifiers are released before what is sent next', async (t) => {
  const { it, told } = outbox(t);
  const link = tunnel(new Refusal(0, 0));
  it.use(link);
  it.add('a', true);
  link.state = 'unstable';
  await settled();
  it.add('b', true);
  link.state = 'open';
  it.turn();
  await settled();
  assert.deepEqual([link.sent, told], [['a', `${RELEASES}b`], ['lost']]);
});

test('what has not come is sent again in its order', async (t) => {
  const { it, told } = outbox(t);
  const link = tunnel(new Refusal(0, 502));
  it.use(link);
  it.add('a', true);
  link.state = 'unstable';
  it.add('b', true);
  await settled();
  link.state = 'open';
  it.turn();
  await settled();
  assert.deepEqual([link.sent, told], [['a', 'ab'], []]);
});

test('nothing is told of an acknowledgement that is lost', async (t) => {
  const { it, told } = outbox(t);
  const link = tunnel(new Refusal(0, 0));
  it.use(link);
  it.add('sync');
  link.state = 'closed';
  await settled();
  assert.deepEqual(told, []);
});
