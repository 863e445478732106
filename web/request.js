// What the page is asked for, by the part of its address behind `#`, which a browser sends to no server:
//
//   #id=$UUID                      joins a session, and types if the session lets joiners type
//   #id=$UUID&read-only            joins a session, and only looks on
//   #id=$UUID&link                 joins by a link that was made for it, whose ID isn't the session's; with &read-only, too
//   #hostname=HOST&port=PORT&columns=80&rows=24&terminal-type=TYPE      fills the form that opens a session
//
// and with &keep-size the session's size stays, whatever the window's. One of given columns or rows stays, too.

import { CELL_HEIGHT, CELL_WIDTH } from './font.js';

/** The terminal type that a host is told: the one of Debian's ncurses-base that the screen and the keys do best
 *  (`tools/terminal-types`). */
export const TERMINAL_TYPE = 'linux';

/** What an address asks for, or null where it asks for nothing. */
export function requestOf(fragment) {
  const given = new URLSearchParams(fragment.replace(/^#/, ''));
  const id = given.get('id');
  if (id) return { id, readOnly: given.has('read-only'), keepsSize: given.has('keep-size'), isLink: given.has('link') };
  if (!given.get('hostname')) return null;
  return sessionOf(given);
}

/** A session that is to be opened, of the fields of the form. */
export function sessionOf(fields) {
  const field = (name, other) => String(fields.get(name) || other);
  const [columns, rows] = [field('columns', ''), field('rows', '')];
  const keepsSize = fields.has('keep-size') || columns !== '' || rows !== '';
  return { hostname: field('hostname', ''), port: field('port', '23'), columns, rows, type: field('terminal-type', TERMINAL_TYPE), readOnly: false, keepsSize };
}

/** The size of a session that is opened: columns and rows that aren't given are those for which the window has room. */
export const sizeOf = ({ columns, rows }, room) => ({ columns: Number(columns || room.columns), rows: Number(rows || room.rows) });

/** The fields of the tunnel's form for it, and for a session that is opened its size. Who has its ID may join such a one,
 *  so that its page can come back; and only that page is told it. */
export function formOf({ id, readOnly, hostname, port, type }, size) {
  if (id) return { id, 'read-only': String(readOnly) };
  return { hostname, port, 'terminal-type': type, sharing: 'control', width: String(size.columns * CELL_WIDTH), height: String(size.rows * CELL_HEIGHT) };
}

/** What is wrong with a field of the form, in words, or nothing. The limits are the gateway's (docs/PROTOCOL.md). */
export function faultOf(name, value) {
  const isIn = (least, most) => /^[0-9]{1,5}$/.test(value) && Number(value) >= least && Number(value) <= most;
  switch (name) {
    case 'hostname': return value.trim() ? '' : 'Name the host to connect to.';
    case 'port': return isIn(1, 65535) ? '' : 'A port is a number from 1 to 65535.';
    case 'columns': return value === '' || isIn(1, 512) ? '' : 'A screen has 1 to 512 columns.';
    case 'rows': return value === '' || isIn(1, 256) ? '' : 'A screen has 1 to 256 rows.';
    case 'terminal-type': return /^[!-~]{1,40}$/.test(value) ? '' : 'A terminal type is a word of at most 40 letters, digits and signs.';
    case 'session': return idIn(value) ? '' : 'Give the link that you were sent, or the ID: $ and 36 characters.';
    default: return '';
  }
}

// Where a tab keeps the session that it shows.
const KEY = 'guacgate';

/** Keeps a session whose ID is known, so that a reload comes back to it, or forgets it. */
export function remember(request) {
  try {
    const { id, readOnly, keepsSize, isLink } = request ?? {};
    if (id) sessionStorage.setItem(KEY, JSON.stringify({ id, readOnly, keepsSize, isLink }));
    else sessionStorage.removeItem(KEY);
  } catch { /* Then the address alone leads back. */ }
}

/** The session that this tab has shown, where it is loaded again, or null. */
export function remembered() {
  const [way] = /** @type {PerformanceNavigationTiming[]} */ (performance.getEntriesByType('navigation'));
  try { return way?.type === 'reload' ? JSON.parse(sessionStorage.getItem(KEY) ?? 'null') : null; } catch { return null; }
}

const idIn = (text) => text.replace('%24', '$').match(/\$[0-9a-f]{8}(-[0-9a-f]{4}){3}-[0-9a-f]{12}/)?.[0];

/** The address that joins by an ID. */
export function linkOf({ id, readOnly, keepsSize = false, isLink = false }, address) {
  return `${address.split('#')[0]}#id=${encodeURIComponent(id)}${isLink ? '&link' : ''}${readOnly ? '&read-only' : keepsSize ? '&keep-size' : ''}`;
}

/** The address that joins the session of a text, which is its ID or a link to it. A link keeps its own way. */
export function joinBy(text, { readOnly = false, keepsSize = false }, address) {
  const has = (word) => new RegExp(`[#&]${word}`).test(text);
  const asked = { id: idIn(text), readOnly: readOnly || has('read-only'), keepsSize: keepsSize || has('keep-size'), isLink: has('link') };
  return linkOf(asked, /^https?:/.test(text) ? text : address);
}

/** What a window with it is called. A session's first digits tell it from others, and lead nobody into it. */
export function titleOf({ id, hostname, readOnly }) {
  if (!id) return hostname;
  return `${readOnly ? 'looking on at' : 'session'} ${id.slice(0, 9)}`;
}
