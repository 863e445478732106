// The page that plays a recording: opens it by files or an address, and shows its syncs one after the other, at a
// speed, or the one that is asked for.

import { cellsOf } from './cells.js';
import { kept } from './choices.js';
import { CELL_HEIGHT, CELL_WIDTH } from './font.js';
import { Unreadable } from './instructions.js';
import { Player, momentsOf } from './player.js';
import { Sharp, advance, cellFor } from './sharp.js';

/** @param {string} id @returns {any} the element of the page */
const at = (id) => document.getElementById(id);

// What is left free around the picture, both sides together.
const FRAME = 20;

/** The terminal, which shows the visible layer of a player: as sharp text, or as its own pixels where those are chosen
 *  on the page of the terminal. */
class Screen {
  #picture;
  #context;
  #sharp;
  #isExact = kept().text === 'exact';
  #cells = new Int32Array(0);

  constructor(picture, sharp) {
    this.#picture = picture;
    this.#context = picture.getContext('2d', { alpha: false, willReadFrequently: true });
    this.#sharp = new Sharp(sharp);
    at('screen').dataset.text = this.#isExact ? 'exact' : 'sharp';
    new ResizeObserver(() => this.#fit()).observe(at('screen'));
  }

  clear() {
    this.#context.clearRect(0, 0, this.#picture.width, this.#picture.height);
    this.#sharp.clear();
  }

  show({ width, height, pixels }) {
    if (width === 0 || height === 0) return;
    const isOther = this.#picture.width !== width || this.#picture.height !== height || this.#cells.length === 0;
    if (isOther) Object.assign(this.#picture, { width, height });
    this.#context.putImageData(new ImageData(new Uint8ClampedArray(pixels.buffer), width, height), 0, 0);
    this.#cells = cellsOf(pixels, width, height);
    if (isOther) this.#fit();
    else if (!this.#isExact) this.#sharp.show(this.#cells, this.#pictureAt);
  }

  #pictureAt = (x, y) => new Uint32Array(this.#context.getImageData(x * CELL_WIDTH, y * CELL_HEIGHT, CELL_WIDTH, CELL_HEIGHT).data.buffer);

  // As large as the window has room for. Of its own pixels each is as large as a whole number of the device's.
  #fit() {
    const { clientWidth, clientHeight } = at('screen');
    if (clientWidth === 0 || this.#cells.length === 0) return;
    const [columns, rows] = [Math.floor(this.#picture.width / CELL_WIDTH), Math.floor(this.#picture.height / CELL_HEIGHT)];
    const room = { width: (clientWidth - FRAME) * devicePixelRatio, height: (clientHeight - FRAME) * devicePixelRatio };
    const factor = Math.max(1, Math.floor(Math.min(room.width / this.#picture.width, room.height / this.#picture.height)));
    const cell = this.#isExact ? { width: CELL_WIDTH * factor, height: CELL_HEIGHT * factor } : cellFor({ columns, rows, room, wanted: 0, ratio: advance() });
    Object.assign(at('terminal').style, { width: `${columns * cell.width / devicePixelRatio}px`, height: `${rows * cell.height / devicePixelRatio}px` });
    if (this.#isExact) return;
    this.#sharp.fit(columns, rows, cell);
    this.#sharp.show(this.#cells, this.#pictureAt);
  }
}

const screen = new Screen(at('picture'), at('sharp'));
let player = null;
// While it plays: the moment of the recording and that of the clock from which it goes on.
let clock = null;

// The state is on the page's body, for its style and for whoever tests it.
function tell(state, message = '') {
  document.body.dataset.state = state;
  at('message').textContent = message;
}

// What a person reads of a moment.
function wordsFor(moment) {
  if (!player.hasMoments) return `stamp ${moment}`;
  const seconds = Math.floor(moment / 1000);
  const two = (number) => String(number).padStart(2, '0');
  return `${Math.floor(seconds / 3600)}:${two(Math.floor(seconds / 60) % 60)}:${two(seconds % 60)}.${String(moment % 1000).padStart(3, '0')}`;
}

function show(k) {
  player.seek(k);
  screen.show(player.visible);
  document.body.dataset.stamp = player.syncs[k].stamp;
  document.body.dataset.sync = k;
  tellPlace();
}

function tellPlace() {
  at('place').textContent = `${wordsFor(player.syncs[player.at].moment)}, picture ${player.at + 1} of ${player.syncs.length}`;
}

// Shows the sync of this number, one of several perhaps that have its moment.
function showOnly(k) {
  stop();
  show(k);
  at('bar').value = player.syncs[k].moment;
}

const step = (by) => showOnly(Math.min(Math.max(player.at + by, 0), player.syncs.length - 1));

// The sync at a moment, or the first one where that is later.
const syncAt = (moment) => Math.max(0, player.find(moment));

// Shows what a moment has, and goes on from there where it plays.
function goTo(moment) {
  if (player.syncs.length === 0) return;
  const k = syncAt(moment);
  if (k !== player.at) show(k);
  at('bar').value = moment;
  if (clock) clock = { moment, since: performance.now() };
}

function stop() {
  clock = null;
  at('play').textContent = 'Play';
  document.body.removeAttribute('data-playing');
}

function play() {
  const [first, last] = [player.syncs[0].moment, player.syncs.at(-1).moment];
  const moment = Number(at('bar').value) >= last ? first : Number(at('bar').value);
  goTo(moment);
  clock = { moment, since: performance.now() };
  at('play').textContent = 'Pause';
  document.body.dataset.playing = '';
  requestAnimationFrame(tick);
}

// Each paint of the browser shows the sync of its moment; those between are played and not shown.
function tick(now) {
  if (!clock) return;
  const moment = clock.moment + Math.max(0, now - clock.since) * Number(at('speed').value);
  const last = player.syncs.at(-1).moment;
  const k = syncAt(Math.min(moment, last));
  if (k !== player.at) show(k);
  at('bar').value = Math.min(moment, last);
  if (moment >= last) stop();
  else requestAnimationFrame(tick);
}

// How far the recording was read, as a person reads it; the bar reaches as far.
function tellRead() {
  const { syncs, read, length } = player;
  if (syncs.length === 0) return;
  if (player.at < 0) show(0);
  tellPlace();
  Object.assign(at('bar'), { min: syncs[0].moment, max: syncs.at(-1).moment });
  at('controls').hidden = false;
  if (read < length) at('message').textContent = `Reading: ${Math.floor(100 * read / length)} %`;
}

async function start(bytes, moments) {
  at('open').hidden = true;
  at('screen').hidden = false;
  at('again').hidden = false;
  stop();
  screen.clear();
  tell('reading', 'Reading …');
  player = new Player(bytes, moments);
  at('measure').textContent = player.hasMoments ? 'The bar is by the moments at which it was recorded.' : 'The bar is by stamps: the recording has no moments.';
  const own = player;
  await own.index(() => { if (own === player) tellRead(); });
  if (own !== player) return;
  goTo(Number(at('bar').value));
  if (player.syncs.length === 0) tell('ended', 'There is no picture in it.');
  else if (player.fault) tell('ready', 'From some place on it can’t be read; what stands before that is played.');
  else tell('ready');
}

async function bytesAt(address) {
  const response = await fetch(address);
  if (!response.ok) throw new Error(`${address}: ${response.status}`);
  return new Uint8Array(await response.arrayBuffer());
}

const textIn = (bytes) => new TextDecoder().decode(bytes);

// Of files the one whose name ends so has the moments, and another one is the recording.
async function openFiles(files) {
  const times = files.find(({ name }) => name.endsWith('.times'));
  const recording = files.find((file) => file !== times);
  if (!recording) throw new Error('a file of moments alone is no recording');
  await start(new Uint8Array(await recording.arrayBuffer()), times ? momentsOf(await times.text()) : null);
}

async function openAddress(address, moments) {
  await start(await bytesAt(address), moments ? momentsOf(textIn(await bytesAt(moments))) : null);
}

// Whatever can't be opened is told, and another one can be.
async function opening(opened) {
  try {
    await opened;
  } catch (fault) {
    at('again').hidden = false;
    tell('ended', fault instanceof Unreadable ? 'This can’t be read as a recording.' : `It can’t be opened: ${fault.message}`);
  }
}

function begin() {
  player = null;
  stop();
  for (const id of ['screen', 'controls', 'again']) at(id).hidden = true;
  for (const id of ['place', 'measure']) at(id).textContent = '';
  at('open').hidden = false;
  tell('idle');
}

at('open').addEventListener('submit', (event) => {
  event.preventDefault();
  const given = new FormData(at('open'));
  const files = /** @type {File[]} */ (given.getAll('files')).filter(({ name }) => name !== '');
  if (files.length > 0) opening(openFiles(files));
  else if (given.get('address') !== '') {
    const asked = new URLSearchParams({ recording: String(given.get('address')) });
    if (given.get('moments')) asked.set('moments', String(given.get('moments')));
    location.hash = String(asked);
  }
});
const playOrStop = () => { if (clock) stop(); else play(); };
at('play').addEventListener('click', playOrStop);
// A step of the bar itself would be a millisecond.
const STEPS = { ArrowLeft: -1, ArrowDown: -1, ArrowRight: 1, ArrowUp: 1 };
at('bar').addEventListener('keydown', (event) => {
  if (!(event.key in STEPS)) return;
  event.preventDefault();
  step(STEPS[event.key]);
});
addEventListener('keydown', (event) => {
  if (event.key !== ' ' || at('controls').hidden || /** @type {Element} */ (event.target).matches('button, select, input:not([type=range])')) return;
  event.preventDefault();
  playOrStop();
});
at('bar').addEventListener('input', () => goTo(Number(at('bar').value)));
at('speed').addEventListener('change', () => { if (clock) clock = { moment: Number(at('bar').value), since: performance.now() }; });
at('jump').addEventListener('submit', (event) => {
  event.preventDefault();
  const stamp = Number(new FormData(at('jump')).get('stamp'));
  showOnly(Math.max(0, player.findStamp(stamp)));
});
at('again').addEventListener('click', () => { if (location.hash) location.hash = ''; else begin(); });
// The address names the recording, so that a link to this page plays it.
function follow() {
  const asked = new URLSearchParams(location.hash.slice(1));
  begin();
  if (asked.get('recording')) opening(openAddress(asked.get('recording'), asked.get('moments')));
}
addEventListener('hashchange', follow);
follow();
