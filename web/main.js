// The page: opens a tunnel as its address or its form asks, shows what it gives, and sends what is typed.

import { Addresses } from './address.js';
import { choose, kept } from './choices.js';
import { Display } from './display.js';
import { Follow } from './follow.js';
import { Keyboard, isPaste } from './keyboard.js';
import { meaningOfKey } from './keysyms.js';
import { BACK, LOST, THROWN, rightsOf, wayOn, wordsOf, wordsOfLink } from './messages.js';
import { Paster } from './paste.js';
import { faultOf, formOf, joinBy, linkOf, remember, remembered, requestOf, sessionOf, sizeOf, titleOf } from './request.js';
import { linesIn, saveAs } from './save.js';
import { Mouse, copyAsLines, copySelected, selectedText } from './selection.js';
import { Links, Share } from './share.js';
import { Speech } from './speech.js';
import { buttonsOf } from './touch.js';
import { View } from './view.js';
import { addressesBeside, waysTo } from './ways.js';

/** @type {(id: string) => any} */
const at = (id) => document.getElementById(id);
const ADDRESSES = addressesBeside(location);
const makeTunnel = waysTo(ADDRESSES);
const IS_MAC = /^(Mac|iP)/.test(navigator.platform);
const FOLDS = ['share', 'panel'];
const FIELDS = ['hostname', 'port', 'columns', 'rows', 'terminal-type'];
// How long, in milliseconds, what happened is told, and what a page that leaves is given to be gone.
const NOTICED = 20000;
const LEAVING = 3000;

/** @type {View | null} */
let view = null;
let request = null;
const speech = new Speech(at('news'));
speech.isOn = kept().speaks;
const follow = new Follow((size) => view?.resize(size));
const display = new Display(at, kept(), speech, (size) => follow.fits(size));
const share = new Share(at('share'), new Links(ADDRESSES.links), () => request.keepsSize);
const choices = choose(at('choices'), kept(), (chosen) => {
  display.choices = chosen;
  speech.isOn = chosen.speaks;
});

// The state is on the page's body, for its style and for whoever tests it.
function tell(state, message = '') {
  document.body.dataset.state = state;
  at('message').textContent = message;
}

let noticed = 0;
function notice(words) {
  at('notice').textContent = words;
  clearTimeout(noticed);
  noticed = setTimeout(() => { at('notice').textContent = ''; }, NOTICED);
}

// What became of keys while the link was bad, until it is told that it is back.
let trouble = '';
function tellTrouble(words) {
  trouble = words;
  notice(words);
}

const told = {
  shown(stamp) {
    document.body.dataset.stamp = stamp;
    delete document.body.dataset.bare;
    follow.shows(display.size);
  },
  changed(state) {
    const before = document.body.dataset.state;
    if (state === before) return;
    tell(state, wordsOfLink(state, view?.types));
    at('rights').textContent = state === 'open' ? rightsOf(request, view?.session) : '';
    at('again').hidden = state !== 'lost';
    if (state === 'lost') keyboard.letGo();
    if (state !== 'open') return;
    if (before === 'opening') opened();
    else notice(`${BACK} ${trouble}`.trim());
    trouble = '';
  },
  answered(isAnswered) { at('rights').textContent = rightsOf(request, view?.session, isAnswered); },
  lost() {
    keyboard.letGo();
    tellTrouble(LOST);
  },
  thrown() {
    // Nothing more is kept until the link is back.
    at('message').textContent = wordsOfLink(document.body.dataset.state, false);
    tellTrouble(THROWN);
  },
};

// What is seen around the terminal while a request is under way.
function surround() {
  at('forms').hidden = true;
  at('again').hidden = true;
  at('screen').hidden = false;
  at('again').textContent = 'Try now';
  at('again').onclick = () => {
    view?.hurry();
    focusKeys();
  };
  at('rights').textContent = '';
  share.use('');
  document.body.toggleAttribute('data-types', !request.readOnly);
  at('keys').disabled = request.readOnly;
  at('keep').checked = request.keepsSize;
  at('keep').parentElement.hidden = request.readOnly;
  document.title = titleOf(request);
}

function letFollow(isOn) {
  follow.isOn = display.follows = isOn;
}

async function start(asked) {
  request = asked;
  surround();
  tell('opening', 'Opening …');
  notice('');
  display.clear();
  document.body.dataset.bare = '';
  const size = sizeOf(request, display.measured());
  follow.begin(request.id ? null : size);
  view = new View(makeTunnel, display, request.readOnly, told);
  const end = await view.run(formOf(request, size));
  // A page that is about to be another one needs no word of it.
  if (end.by === 'left') await new Promise((passed) => setTimeout(passed, LEAVING));
  view = null;
  letFollow(false);
  finish(end);
}

// The session is there. Links to it are made by who types and knows its ID.
function opened() {
  remember({ ...request, id: view.session });
  share.use(request.isLink || request.readOnly ? '' : view.session);
  letFollow(!request.readOnly && !request.keepsSize);
  focusKeys();
}

function finish(end) {
  const { word, isAgain, isReload } = wayOn(end, request);
  if (end.by !== 'left') remember(null);
  paster.forget();
  tell('ended', wordsOf(end, request, document.body.dataset.state !== 'opening'));
  at('rights').textContent = '';
  share.use('');
  at('again').textContent = word;
  at('again').onclick = () => {
    if (isReload) location.reload();
    else if (isAgain) start(request);
    else toStart();
  };
  at('again').hidden = false;
  at('again').focus();
}

const isInAddress = () => requestOf(location.hash)?.id === request?.id && Boolean(request?.id);

// A session that is over goes from the address, so that the same link can be given again.
function toStart() {
  if (request.id) history.replaceState(null, '', location.href.split('#')[0]);
  begin(request.id ? null : request);
}

// An address that names a session joins it. One that names a host fills the form, so that no link has a host dialed
// before a person has agreed.
function begin(asked) {
  if (asked?.id) return start(asked);
  for (const name of FIELDS) if (asked) at('open').elements[name].value = asked[name === 'terminal-type' ? 'type' : name];
  tell('idle');
  document.title = 'guacgate';
  at('screen').hidden = true;
  at('again').hidden = true;
  at('forms').hidden = false;
  at('open').elements.hostname.focus();
}

// A form judges its fields itself, in words.
function judge(form) {
  for (const field of form.elements) if (field.name) field.setCustomValidity(faultOf(field.name, field.value));
}

const act = {
  copy: () => copySelected(at('screen')),
  take() {
    copySelected(at('screen'));
    document.getSelection()?.removeAllRanges();
    focusKeys();
  },
  // To what stands next behind the terminal, so that one step leads back.
  leave: () => FOLDS.map((id) => at(id).querySelector('summary')).find((it) => it.getClientRects().length > 0)?.focus(),
  hush() {
    choices.change({ speaks: !speech.isOn });
    at('news').replaceChildren(speech.isOn ? 'New lines are said.' : 'New lines are no longer said.');
  },
  lineUp: () => display.scrollLines(-1),
  lineDown: () => display.scrollLines(1),
  pageUp: () => display.scroll(-1),
  pageDown: () => display.scroll(1),
  toTop: () => display.scroll(-Infinity),
  toEnd: () => display.toEnd(),
};

function send(keysym, isPressed) {
  if (!view?.types) return;
  if (isPressed) {
    display.toEnd();
    if (keysym < 0x7f) speech.typed(String.fromCharCode(keysym));
  }
  view.press(keysym, isPressed);
}

const paste = (text) => paster.paste(text);
const keyboard = new Keyboard(at('keys'), send, (action) => act[action](), { isMac: IS_MAC, isSelected: () => selectedText(at('screen')) !== '', paste });
const paster = new Paster(at('asking'), (text) => keyboard.type(text), notice, () => choices.now.asks, () => choices.change({ asks: false }));
at('asking').addEventListener('close', focusKeys);
buttonsOf(at('touch'), at('keys'), keyboard, paste);
copyAsLines(at('screen'));
new Mouse(at('screen'), focusKeys);
new Addresses(at('screen'), IS_MAC, () => display.size.columns);
at('save').addEventListener('click', () => saveAs(`${document.title} ${new Date().toISOString().slice(0, 16).replace(':', '.')}.txt`, linesIn(at('screen'))));

at('keys').addEventListener('focus', () => FOLDS.forEach((id) => { at(id).open = false; }));
for (const id of FOLDS) {
  at(id).addEventListener('keydown', (event) => {
    if (event.key !== 'Escape') return;
    at(id).open = false;
    at(id).querySelector('summary').focus();
  });
}

function focusKeys() {
  if (view?.types) at('keys').focus({ preventScroll: true });
}

// Where nothing has the focus, as while text is selected, keys are the terminal's too.
const isNowhere = () => view !== null && (document.activeElement === document.body || document.activeElement === at('screen'));

addEventListener('keydown', (event) => {
  if (!isNowhere() || ['Control', 'Shift', 'Alt', 'Meta'].includes(event.key)) return;
  const meaning = meaningOfKey(event, IS_MAC);
  if (isPaste(event)) focusKeys();
  if (typeof meaning === 'string' || ('keysym' in meaning && !view?.types)) return;
  const isKept = 'action' in meaning || selectedText(at('screen')) !== '' && event.ctrlKey && event.key === 'c';
  if (!isKept) {
    document.getSelection()?.removeAllRanges();
    focusKeys();
  }
  keyboard.press(event);
});
for (const id of ['open', 'join']) at(id).addEventListener('input', () => judge(at(id)));
at('open').addEventListener('submit', (event) => {
  event.preventDefault();
  start(sessionOf(new FormData(event.target)));
});
at('join').addEventListener('submit', (event) => {
  event.preventDefault();
  const given = new FormData(event.target);
  const asked = { readOnly: given.has('read-only'), keepsSize: given.has('keep-size') };
  location.href = joinBy(String(given.get('session')).trim(), asked, location.href);
});
// The choice stands in the address, as that to look on alone does, and in the links for others.
at('keep').addEventListener('change', () => {
  request.keepsSize = at('keep').checked;
  letFollow(view !== null && !request.keepsSize);
  if (view?.session) remember({ ...request, id: view.session });
  if (isInAddress()) history.replaceState(null, '', linkOf(request, location.href));
});
// What is wrong in a part of a form that is folded would be told nowhere.
at('open').addEventListener('invalid', (event) => event.target.closest('details')?.setAttribute('open', ''), true);
addEventListener('hashchange', () => {
  remember(null);
  location.reload();
});
addEventListener('pagehide', () => view?.leave());
// A page that the browser has kept has left its session.
addEventListener('pageshow', (event) => { if (event.persisted) location.reload(); });
// A reload alone leads back to a session that isn't in the address, so the browser asks before it is left. Any other is
// left now: Firefox may end a page before it sends what is sent at its end.
addEventListener('beforeunload', (event) => {
  if (view === null || document.body.dataset.state === 'opening') return;
  if (isInAddress()) view.leave();
  else event.preventDefault();
});
// What the tab has shown counts more than a host in the address, which was its way there.
const asked = requestOf(location.hash);
begin(asked?.id ? asked : remembered() ?? asked);
for (const id of ['open', 'join']) judge(at(id));
