// The tunnel over a network that isn't real.
import assert from 'node:assert/strict';
import test from 'node:test';
import { module } from './page.mjs';

const { HttpTunnel, Refusal } = await module('tunnel');

const answer = (text, status = 200, code = '') => ({ ok: status === 200, status, headers: new Map(code ? [['Guacamole-Status-Code', code]] : []), text: async () => text });
const never = () => new Promise(() => {});
const END = answer('10.disconnect;0.;');

/** Sets what requests are answered with, by their kind and one after the other, and gives what is asked, and the tunnel's
 *  news. A read without an answer waits until it is aborted. */
function network({ connect = [answer('T')], read = [], write = [] }, form = { id: '$1' }) {
  const asked = [];
  const news = [];
  const answers = { connect, read, write };
  globalThis.fetch = async (url, { method = 'GET', body = '', signal }) => {
    asked.push(`${method} ${url} ${body}`);
    const next = answers[url.match(/\?([a-z]+)/)[1]].shift();
    if (next instanceof Error) throw next;
    if (next !== undefined) return next instanceof Function ? next() : next;
    return new Promise((_, fail) => signal.addEventListener('abort', () => fail(new Error('aborted'))));
  };
  const tunnel = new HttpTunnel('/tunnel');
  const closed = new Promise((end) => tunnel.connect(form, {
    given: (instructions) => news.push(instructions.map((it) => it.join(' ')).join('; ')),
    changed(state, fault) {
      news.push(state);
      if (state === 'closed') end(fault);
    },
  }));
  return { tunnel, asked, news, closed };
}

test('a tunnel is opened by a form, and read until the session is over', async () => {
  const { asked, news, closed } = network({ read: [answer('4.sync,1.1;0.;'), answer('0.;'), END] });
  assert.equal(await closed, undefined);
  assert.deepEqual(asked, ['POST /tunnel?connect id=%241', ...Array(3).fill('GET /tunnel?read:T ')]);
  assert.deepEqual(news, ['open', 'sync 1', 'disconnect', 'closed']);
});

for (const [given, code, status, mayPass] of [[answer('', 404, '516'), 516, 404, false], [answer('', 502), 0, 502, true], [answer('', 401), 0, 401, false], [new TypeError('no network'), 0, 0, true], [answer('4.sync,1'), 0, 0, true]]) {
  test(`a read that is answered with ${status} and ${code} closes it`, async () => {
    const fault = await network({ read: [given] }).closed;
    assert.ok(fault instanceof Refusal);
    assert.deepEqual([fault.code, fault.status, fault.mayPass], [code, status, mayPass]);
  });
}

for (const refusal of [answer('', 404, '516'), answer('', 410, '523')]) {
  test(`a write that is answered with ${refusal.status} leaves the end to the read`, async () => {
    let end;
    const { tunnel, news, closed } = network({ read: [() => new Promise((give) => { end = () => give(END); })], write: [refusal] });
    await new Promise((go) => setTimeout(go));
    const sent = tunnel.send('3.nop;');
    await new Promise((go) => setTimeout(go));
    assert.equal(tunnel.state, 'open');
    end();
    assert.equal(await closed, undefined);
    assert.equal(await sent, undefined);
    assert.deepEqual(news, ['open', 'disconnect', 'closed']);
  });
}

test('a session that is opened is its viewer’s alone', async () => {
  const { asked, closed } = network({ read: [END] }, { hostname: 'h', sharing: 'control' });
  await closed;
  assert.equal(asked[0], 'POST /tunnel?connect hostname=h&sharing=none');
});

test('a read that has no memory is made again', async () => {
  const { asked, closed } = network({ read: [answer('', 500, '512'), END] });
  assert.equal(await closed, undefined);
  assert.equal(asked.length, 3);
});

test('a request that can’t open it closes it', async () => {
  const { news, closed } = network({ connect: [answer('', 404, '516')] });
  assert.equal((await closed).code, 516);
  assert.deepEqual(news, ['closed']);
});

test('what has no end can’t be read', async () => assert.equal((await network({ read: [answer('4.sync,1.10.;')] }).closed).constructor.name, 'Unreadable'));

test('what is sent has come once its request is answered', async () => {
  const { tunnel, asked, closed } = network({ write: [answer('')] });
  await new Promise((end) => setTimeout(end, 10));
  await tunnel.send('3.key,2.97,1.1;');
  assert.equal(asked.at(-1), 'POST /tunnel?write:T 3.key,2.97,1.1;');
  tunnel.cut();
  assert.equal((await closed).mayPass, true);
  assert.equal(tunnel.state, 'closed');
});

test('a write that is lost closes a tunnel to a session that can be joined again', async () => {
  const { tunnel, closed } = network({ write: [new TypeError('no network')] });
  await new Promise((end) => setTimeout(end, 10));
  await assert.rejects(tunnel.send('a;'), (fault) => fault.mayPass && !fault.isUndone);
  assert.equal((await closed).status, 0);
});

test('of any other session it asks until the gateway is there again', async () => {
  const { tunnel, asked, news } = network({ write: [answer('', 502), new TypeError('no network'), answer('')] }, { hostname: 'h' });
  await new Promise((end) => setTimeout(end, 10));
  await assert.rejects(tunnel.send('a;'), (fault) => fault.isUndone);
  assert.equal(tunnel.state, 'unstable');
  await new Promise((end) => setTimeout(end, 1600));
  assert.deepEqual(news, ['open', 'unstable', 'open']);
  assert.deepEqual(asked.slice(-3).map((it) => it.split(' ')[1]), Array(3).fill('/tunnel?write:T'));
  tunnel.cut();
});

test('a write without an answer for 5 seconds makes it unstable, until it is answered', async (t) => {
  let now = 0;
  let release;
  t.mock.method(performance, 'now', () => now);
  t.mock.method(globalThis, 'setInterval', (look) => { globalThis.look = look; return 1; });
  const { tunnel, news } = network({ write: [() => new Promise((end) => { release = end; })] });
  await new Promise((end) => setTimeout(end, 10));
  const sent = tunnel.send('a;');
  now = 5000;
  globalThis.look();
  assert.equal(tunnel.state, 'open');
  now = 5001;
  globalThis.look();
  assert.equal(tunnel.state, 'unstable');
  release(answer(''));
  await sent;
  globalThis.look();
  assert.deepEqual(news, ['open', 'unstable', 'open']);
  tunnel.cut();
});

test('a page that is seen asks after 10 quiet seconds whether the gateway is there, and one that isn’t doesn’t', async (t) => {
  let now = 0;
  t.mock.method(performance, 'now', () => now);
  t.mock.method(globalThis, 'setInterval', (look) => { globalThis.look = look; return 1; });
  const { tunnel, asked } = network({ write: [answer('')] });
  await new Promise((end) => setTimeout(end, 10));
  now = 10001;
  globalThis.document = { hidden: true };
  globalThis.look();
  assert.equal(asked.filter((it) => it.includes('write')).length, 0);
  delete globalThis.document;
  globalThis.look();
  assert.equal(asked.filter((it) => it === 'POST /tunnel?write:T ').length, 1);
  tunnel.cut();
});

test('a machine that is offline asks at once, and its link is good as long as it is answered', async (t) => {
  let now = 0;
  t.mock.method(performance, 'now', () => now);
  t.mock.method(globalThis, 'setInterval', (look) => { globalThis.look = look; return 1; });
  const before = Object.getOwnPropertyDescriptor(globalThis, 'navigator');
  Object.defineProperty(globalThis, 'navigator', { value: { onLine: false }, configurable: true });
  t.after(() => (before ? Object.defineProperty(globalThis, 'navigator', before) : delete globalThis.navigator));
  const { tunnel, asked } = network({ write: [answer(''), new TypeError('no network')] });
  await new Promise((end) => setTimeout(end, 10));
  for (now = 501; tunnel.state === 'open' && now < 5000; now += 501) {
    globalThis.look();
    await new Promise((end) => setTimeout(end, 1));
  }
  assert.equal(tunnel.state, 'closed');
  assert.equal(asked.filter((it) => it === 'POST /tunnel?write:T ').length, 2);
});

test('a place is given back where the gateway is reached, and once', async () => {
  const { tunnel, asked } = network({ read: [new TypeError('no network')], write: [new TypeError('no network'), answer('')] });
  await new Promise((end) => setTimeout(end, 10));
  await assert.rejects(tunnel.giveBack());
  await tunnel.giveBack();
  await tunnel.giveBack();
  assert.deepEqual(asked.filter((it) => it.includes('write')), Array(2).fill('POST /tunnel?write:T 10.disconnect;'));
});
