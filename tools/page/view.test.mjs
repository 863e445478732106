// A view over tunnels and a display that aren't real: what is shown and acknowledged, how it ends, and how it comes back.
import assert from 'node:assert/strict';
import test from 'node:test';
import { module } from './page.mjs';

const { View } = await module('view');
const { Reader, Unreadable } = await module('instructions');
const { NoWay, Refusal } = await module('tunnel');

/** A view whose tunnels do what a list tells: a text is given, a fault closes a tunnel, and a function is called. One that
 *  begins with a fault is never open. */
function view(lives, { readOnly = false, session = '' } = {}) {
  const happened = [];
  const note = (name) => (...given) => { happened.push([name, ...given].join(' ')); };
  const make = () => {
    const tunnel = {
      state: 'connecting',
      session,
      most: 1,
      async connect(form, hearer) {
        note('connect')(JSON.stringify(form));
        tunnel.session ||= form.id ?? '';
        const change = (state, fault) => { tunnel.state = state; hearer.changed(state, fault); };
        tunnel.cut = () => change('closed', new Refusal(0, 0));
        try {
          const [first, ...rest] = lives.shift();
          if (first instanceof Error) throw first;
          change('open');
          for (const next of [first, ...rest]) {
            await null;
            if (next instanceof Error) throw next;
            const text = next instanceof Function ? await next() : next;
            if (text) hearer.given(new Reader().read(text));
          }
          change('closed');
        } catch (fault) {
          change('closed', fault);
        }
      },
      send: async (text) => note('send')(text),
      cut() {},
      disconnect: note('disconnect'),
      giveBack: async () => note('give back')(),
    };
    return tunnel;
  };
  const display = { draw: (instruction) => { if (instruction[0] === 'bad') throw new TypeError('a fault'); note('draw')(instruction[0]); return true; }, settle: note('settle'), show: note('show'), renew: note('renew') };
  return { happened, it: new View(make, display, readOnly, { shown: note('shown'), changed: note('link'), answered: note('answered'), lost: note('lost'), thrown: note('thrown') }) };
}

const JOINS = 'connect {"id":"$1"}';
const LOST = new Refusal(0, 0);
const KNOWN = { id: '$1' };
const OVER = '10.disconnect;';

test('frames are drawn, and shown and acknowledged at the last sync', async () => {
  const { happened, it } = view([['4.size,1.0,1.1,1.1;4.sync,1.1;4.copy;4.sync,1.2;', OVER]]);
  assert.deepEqual(await it.run(KNOWN), { by: 'host' });
  assert.deepEqual(happened, [JOINS, 'link open', 'draw size', 'settle', 'draw copy', 'settle', 'show', 'shown 2', 'send 4.sync,1.2;', 'disconnect']);
});

const ends = [
  ['an error', ['5.error,14.session closed,3.523;'], { by: 'error', code: 523 }],
  ['a refusal', [new Refusal(516, 404)], { by: 'refusal', code: 516, status: 404 }],
  ['a link that isn’t there', [LOST], { by: 'refusal', code: 0, status: 0 }],
  ['a link that is lost to a session that can’t be joined', ['', LOST], { by: 'unreachable' }],
  ['a gateway that no longer knows it', ['', new Refusal(516, 404)], { by: 'refusal', code: 516, status: 404 }],
  ['what can’t be read', ['', new Unreadable('no')], { by: 'unreadable' }],
];
for (const [name, life, end] of ends) {
  test(`a view ends by ${name}`, async () => {
    const { happened, it } = view([life]);
    assert.deepEqual(await it.run({ hostname: 'h' }), end);
    assert.deepEqual(happened.filter((did) => did.startsWith('show')), []);
  });
}

test('a fault of the page ends a view, which leaves', async (t) => {
  t.mock.method(console, 'error', () => {});
  const { happened, it } = view([['3.bad;4.sync,1.1;']]);
  assert.deepEqual(await it.run(KNOWN), { by: 'fault' });
  assert.deepEqual(happened, [JOINS, 'link open', 'disconnect']);
});

test('who only looks on sends no key and no size', async () => {
  const act = (it) => { it.press(0x61, true); it.resize({ columns: 132, rows: 50 }); };
  const looking = view([[() => act(looking.it), OVER]], { readOnly: true });
  await looking.it.run(KNOWN);
  assert.deepEqual(looking.happened, [JOINS, 'link open', 'disconnect']);
  const typing = view([[() => act(typing.it), OVER]]);
  await typing.it.run(KNOWN);
  assert.deepEqual(typing.happened.filter((did) => did.startsWith('send')).join('').replaceAll('send ', ''), '3.key,2.97,1.1;4.size,4.1056,3.800,2.96;');
});

test('a session is joined again where its link is lost, once its place is given back', async () => {
  const { happened, it } = view([['4.sync,1.1;', LOST], ['4.sync,1.2;', OVER]]);
  const end = it.run(KNOWN);
  await new Promise((passed) => setTimeout(passed, 50));
  it.press(0x61, true);
  assert.deepEqual(await end, { by: 'host' });
  const order = ['link open', 'shown 1', 'link lost', 'give back', 'renew', 'link open', 'shown 2'];
  assert.deepEqual(happened.filter((did) => order.includes(did)), order);
  const sent = happened.filter((did) => did.startsWith('send')).join(' ');
  assert.match(sent, /65507,1\.0;.*65514,1\.0;3\.key,2\.97,1\.1;/);
});

test('a session whose tunnel tells its ID is joined by it, as what it was', async () => {
  const { happened, it } = view([['', LOST], [OVER]], { session: '$7' });
  assert.deepEqual(await it.run({ hostname: 'h' }), { by: 'host' });
  assert.deepEqual(happened.filter((did) => did.startsWith('connect')), ['connect {"hostname":"h"}', 'connect {"id":"$7","read-only":"false"}']);
});

test('where a kind of tunnel can’t be had the next is made at once, and its ID is told', async () => {
  const { happened, it } = view([[new NoWay()], ['', OVER]], { session: '$7' });
  assert.equal(it.session, '');
  assert.deepEqual(await it.run({ hostname: 'h' }), { by: 'host' });
  assert.deepEqual(happened, [...Array(2).fill('connect {"hostname":"h"}'), 'link open', 'disconnect']);
  assert.equal(it.session, '$7');
});

test('tries go on while nothing is reached, and end where the session is over', async () => {
  const lives = [['', LOST], [LOST], [new Refusal(797, 429)], ['', new Refusal(516, 404)], [new Refusal(516, 404)]];
  const { it, happened } = view(lives);
  const end = it.run(KNOWN);
  const hurry = setInterval(() => it.hurry(), 5);
  assert.deepEqual(await end, { by: 'refusal', code: 516, status: 404 });
  clearInterval(hurry);
  assert.deepEqual(happened.filter((did) => did === 'link lost').length, 4);
});

test('who leaves is told no end of it, and doesn’t come back', async () => {
  const leaving = view([[() => leaving.it.leave(), LOST]]);
  assert.deepEqual(await leaving.it.run(KNOWN), { by: 'left' });
  const lost = view([['', LOST]]);
  const end = lost.it.run(KNOWN);
  await new Promise((passed) => setTimeout(passed, 50));
  lost.it.leave();
  assert.deepEqual(await end, { by: 'left' });
  assert.ok(lost.happened.includes('disconnect'));
});

test('a size that a window has while the link is lost is told behind it', async () => {
  const { happened, it } = view([['', LOST], ['', OVER]]);
  const end = it.run(KNOWN);
  await new Promise((passed) => setTimeout(passed, 50));
  it.resize({ columns: 90, rows: 30 });
  it.hurry();
  await end;
  assert.ok(happened.join().includes('4.size,3.720,3.480,2.96;'));
});

test('a machine that has slept joins again', async (t) => {
  let now = 1e12;
  t.mock.method(Date, 'now', () => now);
  const { happened, it } = view([[() => new Promise(() => {})], ['4.sync,1.2;', OVER]]);
  const end = it.run(KNOWN);
  await new Promise((passed) => setTimeout(passed, 50));
  now += 60000;
  assert.deepEqual(await end, { by: 'host' });
  assert.ok(happened.includes('link lost') && happened.includes('shown 2'));
});

const later = (milliseconds, text) => () => new Promise((end) => setTimeout(() => end(text), milliseconds));

test('keys that nothing answers are told of, and so is an answer', async () => {
  const { happened, it } = view([[() => it.press(0x61, true), later(3800, '4.sync,1.1;'), OVER]]);
  await it.run(KNOWN);
  assert.deepEqual(happened.filter((did) => did.startsWith('answered')), ['answered false', 'answered true']);
});
