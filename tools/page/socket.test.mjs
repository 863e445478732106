// The tunnel over a WebSocket that isn't real, and which way a page takes.
import assert from 'node:assert/strict';
import test from 'node:test';
import { module } from './page.mjs';

const { QUESTIONS, WebSocketTunnel } = await module('socket');
const { HttpTunnel, NoWay, Refusal } = await module('tunnel');
const { addressesBeside, waysTo } = await module('ways');
const READY = '5.ready,2.$1;';
const later = () => new Promise((end) => setTimeout(end));

/** What a browser has in the place of a WebSocket. */
class Socket {
  static OPEN = 1;
  static last;
  readyState = 0;
  said = [];
  constructor(address, protocol) {
    if (address === 'ws://never') throw new Error('refused');
    Object.assign(this, { address, protocol });
    Socket.last = this;
  }
  open() { this.readyState = 1; this.onopen(); }
  send(text) { this.said.push(text); }
  hear(...texts) { texts.forEach((data) => this.onmessage({ data })); }
  end() { this.readyState = 3; this.onclose({ code: 1006 }); }
  close() { this.readyState = 2; }
}
globalThis.WebSocket = Socket;

/** Sets a clock that stands still, and gives what lets time pass. */
function clock(t) {
  let now = 0;
  const timers = new Map();
  const set = (act, time, every = 0) => timers.set(set.count = (set.count ?? 0) + 1, { act, at: now + time, every }) && set.count;
  t.mock.method(performance, 'now', () => now);
  t.mock.method(globalThis, 'setTimeout', (act, time) => set(act, time));
  t.mock.method(globalThis, 'setInterval', (act, time) => set(act, time, time));
  for (const name of ['clearTimeout', 'clearInterval']) t.mock.method(globalThis, name, (timer) => timers.delete(timer));
  return (time) => {
    for (const end = now + time; now < end;) {
      now += 1;
      for (const [timer, { act, at, every }] of [...timers]) {
        if (at > now || !timers.has(timer)) continue;
        if (every > 0) timers.set(timer, { act, at: now + every, every });
        else timers.delete(timer);
        act();
      }
    }
  };
}

/** A tunnel whose time stands still but for `pass`, with its socket and its news. */
function tunnel(t, form = { id: '$1' }) {
  t.mock.restoreAll();
  const pass = clock(t);
  const news = [];
  const tried = [];
  const it = new WebSocketTunnel('ws://h/websocket-tunnel', (isThere) => tried.push(isThere));
  it.connect(form, {
    given: (instructions) => news.push(instructions.map((each) => each.join(' ')).join('; ')),
    changed: (state, fault) => news.push(fault ? `${state} ${fault.constructor.name} ${fault.code ?? ''}`.trim() : state),
  });
  return { it, news, tried, pass, socket: Socket.last };
}

/** One that is open, of which nothing is unanswered. */
function opened(t) {
  const made = tunnel(t);
  made.socket.open();
  made.socket.hear(READY);
  made.socket.said.length = 0;
  return made;
}

test('the form is said first, and the first answer has the ID and the picture', (t) => {
  const { it, news, tried, socket } = tunnel(t, { hostname: 'h h', port: '23' });
  assert.deepEqual([socket.address, socket.protocol], ['ws://h/websocket-tunnel', 'guacamole']);
  socket.open();
  assert.deepEqual([socket.said, it.state, tried], [['hostname=h+h&port=23'], 'connecting', [true]]);
  socket.hear(`${READY}4.sync,1.7;`);
  assert.deepEqual([it.session, news], ['$1', ['open', 'sync 7']]);
});

for (const [name, act, wanted] of [
  ['a refusal', (socket) => socket.hear('5.error,18.resource not found,3.516;'), 'closed Refusal 516'],
  ['another answer', (socket) => socket.hear('4.sync,1.7;'), 'closed Unreadable'],
  ['no answer but an end', (socket) => socket.end(), 'closed Refusal 0'],
  ['what is no text', (socket) => socket.hear(new ArrayBuffer(2)), 'closed Unreadable'],
]) {
  test(`a form that has ${name} closes it`, (t) => {
    const { news, socket } = tunnel(t);
    socket.open();
    act(socket);
    assert.deepEqual(news, [wanted]);
  });
}

test('a handshake that fails, or has no answer, is no way', (t) => {
  const { news, tried, socket } = tunnel(t);
  socket.end();
  assert.deepEqual([news, tried], [['closed NoWay'], [false]]);
  const waits = tunnel(t);
  waits.pass(10000);
  assert.equal(waits.socket.readyState, 2);
  const never = [];
  new WebSocketTunnel('ws://never', () => {}).connect({}, { given() {}, changed: (state, fault) => never.push(state, fault instanceof NoWay) });
  assert.deepEqual(never, ['closed', true]);
});

test('a form may wait for an answer: to join 15 seconds, to open 120', (t) => {
  for (const [form, time] of [[{ id: '$1' }, 15000], [{ hostname: 'h' }, 120000]]) {
    const { news, socket, pass } = tunnel(t, form);
    socket.open();
    pass(time - 1);
    assert.deepEqual(news, []);
    pass(1);
    assert.deepEqual(news, ['closed Refusal 0']);
  }
});

test('it asks by a clock, more often where something happened, and never has more than 8 unanswered', (t) => {
  const { socket, pass } = opened(t);
  const asked = (time) => { socket.said.length = 0; pass(time); return socket.said.length; };
  assert.deepEqual([asked(9), asked(1), asked(19), asked(1), asked(40), asked(40)], [0, 1, 0, 1, 1, 1]);
  socket.hear('', '', '', '');
  assert.equal(asked(1000), 8);
  socket.hear(...Array(8).fill(''));
  for (let n = 0; n < 60; n++) socket.hear(...Array(asked(1000)).fill(''));
  assert.equal(asked(1000), 4);
  socket.hear('4.copy;');
  assert.equal(asked(29), 1);
});

test('a tab that nobody sees asks once a second, and at once where it is seen', (t) => {
  const page = new EventTarget();
  globalThis.document = Object.assign(page, { hidden: true });
  globalThis.Worker = class {
    postMessage(length) { clearTimeout(this.timer); this.timer = setTimeout(() => this.onmessage?.(), length); }
    terminate() {}
  };
  t.after(() => { delete globalThis.document; });
  const { socket, pass } = opened(t);
  pass(QUESTIONS.hidden - 1);
  assert.deepEqual(socket.said, []);
  pass(1);
  assert.deepEqual(socket.said, ['']);
  page.hidden = false;
  page.dispatchEvent(new Event('visibilitychange'));
  pass(10);
  assert.deepEqual(socket.said, ['', '']);
});

test('keys go at once, an acknowledgement goes along with what is said next, and the newest is enough', async (t) => {
  const { it, socket, pass } = opened(t);
  await it.send('4.sync,1.7;');
  await it.send('4.sync,1.8;');
  assert.deepEqual(socket.said, []);
  let isHeard = false;
  it.send('3.key,2.97,1.1;').then(() => { isHeard = true; });
  assert.deepEqual(socket.said, ['4.sync,1.8;3.key,2.97,1.1;']);
  await null;
  assert.equal(isHeard, false);
  socket.hear('');
  await null;
  assert.equal(isHeard, true);
  await it.send('4.sync,1.9;');
  pass(10);
  assert.deepEqual(socket.said.slice(1), ['4.sync,1.9;']);
});

test('what is sent while 8 are unanswered waits, before any question', (t) => {
  const { it, socket, pass } = opened(t);
  for (const text of 'abcdefghij') it.send(`1.${text};`);
  assert.equal(socket.said.length, 8);
  pass(100);
  socket.hear('', '');
  assert.deepEqual(socket.said.slice(8), ['1.i;', '1.j;']);
});

test('instructions may go on in the next message', (t) => {
  const { news, socket, pass } = opened(t);
  pass(30);
  socket.hear('4.sync,1.7;4.s', 'ync,1.8;');
  assert.deepEqual(news, ['open', 'sync 7', 'sync 8']);
});

test('a message that nothing asked for can’t be read', (t) => {
  const { news, socket } = opened(t);
  socket.hear('');
  assert.deepEqual(news, ['open', 'closed Unreadable']);
});

test('the last instruction closes it, and what was said last has come', async (t) => {
  const { it, news, socket } = opened(t);
  const sent = it.send('3.nop;');
  const behind = it.send('3.nop;');
  socket.hear('10.disconnect;');
  assert.deepEqual([await sent, await behind], [undefined, undefined]);
  assert.deepEqual([news, socket.readyState], [['open', 'disconnect', 'closed'], 2]);
  socket.hear('4.sync,1.9;');
  socket.end();
  assert.equal(news.length, 3);
});

test('a link that is lost closes it, and what has no answer may be lost', async (t) => {
  const { it, news, socket } = opened(t);
  const sent = it.send('3.key,2.97,1.1;');
  socket.end();
  await assert.rejects(sent, (fault) => fault instanceof Refusal && fault.mayPass && !fault.isUndone);
  await assert.rejects(it.send('3.nop;'));
  await it.giveBack();
  assert.deepEqual(news, ['open', 'closed Refusal 0']);
});

test('no answer for 5 seconds makes it unstable, and for 15 closes it', (t) => {
  const { news, socket, pass } = opened(t);
  pass(5000);
  assert.deepEqual(news, ['open']);
  pass(1000);
  assert.deepEqual(news, ['open', 'unstable']);
  socket.hear(...Array(8).fill(''));
  pass(1000);
  assert.deepEqual(news, ['open', 'unstable', 'open']);
  pass(16000);
  assert.deepEqual(news.slice(3), ['unstable', 'closed Refusal 0']);
});

test('who leaves says so once', (t) => {
  const { it, news, socket, pass } = opened(t);
  it.disconnect();
  it.disconnect();
  pass(1000);
  assert.deepEqual([socket.said, socket.readyState, news], [['10.disconnect;'], 2, ['open', 'closed']]);
});

test('the addresses beside a page have no login', () => {
  const at = { origin: 'https://h:1', href: 'https://ann:x@h:1/a/index.html#id=1' };
  assert.deepEqual(addressesBeside(at), { http: 'https://h:1/a/tunnel', socket: 'wss://h:1/a/websocket-tunnel', links: 'https://h:1/a/links' });
});

/** The kinds of tunnels that a page makes, whose WebSockets are there as listed, and of which HTTP is answered as listed. */
async function kinds(sockets, answers) {
  const make = waysTo({ socket: 'ws://h', http: '/tunnel' });
  const made = [];
  globalThis.fetch = async () => { const status = answers.shift(); return { ok: status === 200, status, headers: new Map(), text: async () => 'T' }; };
  for (let n = 0; n < 6; n++) {
    const it = make();
    made.push(it instanceof HttpTunnel ? 'http' : 'socket');
    it.connect({ id: '$1' }, { given() {}, changed() {} });
    if (it instanceof WebSocketTunnel) sockets.shift() ? Socket.last.open() : Socket.last.end();
    await later();
    it.cut();
  }
  return made.join(' ');
}

test('a page takes HTTP where it has had no WebSocket and HTTP leads to the gateway', async () => assert.equal(await kinds([false], [200, 200, 200, 200, 200]), 'socket http http http http http'));
test('where neither leads there a WebSocket is tried again', async () => assert.equal(await kinds([false, false, true, true], [502, 401]), 'socket http socket http socket socket'));
test('a page that had a WebSocket takes HTTP once where there is none', async () => assert.equal(await kinds([true, false, true, true, true], [200]), 'socket socket http socket socket socket'));
