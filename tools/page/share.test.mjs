// Links for others, at a gateway that isn't real.
import assert from 'node:assert/strict';
import test from 'node:test';
import { module } from './page.mjs';

const { Links, isUses } = await module('share');

/** Sets what requests are answered with, and gives what is asked. */
function gateway(...answers) {
  const asked = [];
  globalThis.fetch = async (url, { method, body }) => {
    asked.push(`${method} ${url} ${body}`.trim());
    const [status, text, code] = answers.shift();
    return { ok: status === 200, status, headers: new Map(code ? [['Guacamole-Status-Code', code]] : []), text: async () => text };
  };
  return asked;
}

test.beforeEach(() => {
  const kept = new Map();
  globalThis.sessionStorage = { getItem: (key) => kept.get(key) ?? null, setItem: (key, value) => kept.set(key, value) };
});

test('links are made, kept by the tab, and taken back', async () => {
  const asked = gateway([200, '$7'], [200, '$8'], [200, '']);
  const links = new Links('/links');
  links.use('$1');
  const looks = await links.make({ readOnly: true, uses: 30, keepsSize: false });
  assert.deepEqual(looks, { id: '$7', readOnly: true, uses: 30, keepsSize: false });
  await links.make({ readOnly: false, uses: 1, keepsSize: true });
  const again = new Links('/links');
  again.use('$1');
  assert.deepEqual(again.made.map(({ id }) => id), ['$7', '$8']);
  await again.revoke(again.made[0]);
  assert.deepEqual(again.made.map(({ id }) => id), ['$8']);
  assert.deepEqual(asked, ['POST /links?make id=%241&role=view&uses=30', 'POST /links?make id=%241&role=control&uses=1', 'POST /links?revoke:7']);
  const other = new Links('/links');
  other.use('$2');
  assert.deepEqual(other.made, []);
});

test('what is refused changes nothing, but that a link which isn’t there is gone', async () => {
  gateway([404, '', '516'], [200, '$7'], [502, ''], [404, '', '516']);
  const links = new Links('/links');
  links.use('$1');
  const asked = { readOnly: true, uses: 1, keepsSize: false };
  await assert.rejects(links.make(asked), (refusal) => refusal.code === 516 && refusal.status === 404);
  const link = await links.make(asked);
  await assert.rejects(links.revoke(link), (refusal) => refusal.status === 502);
  assert.equal(links.made.length, 1);
  await links.revoke(link);
  assert.deepEqual(links.made, []);
});

test('a number of uses', () => {
  assert.deepEqual(['1', '1000000', '007'].map(isUses), [true, true, true]);
  assert.deepEqual(['0', '1000001', '-1', '1.5', '', 'many'].map(isUses), Array(6).fill(false));
});
