// Rests get longer, and one that is cut ends at once.
import assert from 'node:assert/strict';
import test from 'node:test';
import { module } from './page.mjs';

const { READS, Rest, TRIES } = await module('rest');
const lasted = async (act) => { const start = performance.now(); await act(); return performance.now() - start; };

test('rests', async () => {
  const rest = new Rest(READS);
  for (let n = 0; n < 5; n++) await rest.once();
  assert.ok(await lasted(() => rest.once()) > 150);
  assert.ok(await lasted(async () => { const end = rest.once(); rest.cut(); await end; }) < 100);
});

/** Sets a page, and gives the lengths of rests that each last no time. */
function page(t, hidden) {
  const lengths = [];
  const window = new EventTarget();
  globalThis.document = { hidden };
  globalThis.addEventListener = window.addEventListener.bind(window);
  globalThis.removeEventListener = window.removeEventListener.bind(window);
  t.mock.method(globalThis, 'setTimeout', (act, length) => { lengths.push(length); if (length < 60000) queueMicrotask(act); });
  t.after(() => ['document', 'addEventListener', 'removeEventListener'].forEach((name) => delete globalThis[name]));
  return { lengths, window };
}

test('tries are made 0.3, 1, 3 and 9.5 seconds behind the loss, and then every 10', async (t) => {
  const { lengths } = page(t, false);
  const rest = new Rest(TRIES);
  for (let n = 0; n < 6; n++) await rest.once();
  assert.deepEqual(lengths, [300, 700, 2000, 6500, 10000, 10000]);
});

test('a page that nobody sees tries once a minute, and at once where it is seen or online again', async (t) => {
  const { lengths, window } = page(t, true);
  const rest = new Rest(TRIES);
  for (const name of ['visibilitychange', 'online']) {
    const end = rest.once();
    window.dispatchEvent(new Event(name));
    await end;
  }
  assert.deepEqual(lengths, [60000, 60000]);
});
