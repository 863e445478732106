// Addresses of pages in the rows of a terminal, which a click with Control opens, or with Command on a Mac.

import { placeAt } from './selection.js';

// What may stand in an address (RFC 3986, section 2, and letters of all scripts, RFC 3987), and the sign for a character
// that isn't known, of which no address can be read.
const ADDRESS = /\bhttps?:\/\/[\p{L}\p{M}\p{N}\ufffd\-._~%:/?#[\]@!$&'()*+,;=]+/giu;
const OPENED = { ')': '(', ']': '[' };

const count = (text, sign) => text.split(sign).length - 1;

// A sign that ends a sentence, and a bracket that was opened before the address, aren't of it (RFC 3986, appendix C).
function withoutEnd(text) {
  const last = text.at(-1);
  const isOver = /[.,;:!?']/.test(last) || (last in OPENED && count(text, OPENED[last]) < count(text, last));
  return isOver ? withoutEnd(text.slice(0, -1)) : text;
}

/** The address that stands at a place of a text, or null. @param {string} text @param {number} place */
export function addressAt(text, place) {
  for (const { 0: found, index } of text.matchAll(ADDRESS)) {
    const address = withoutEnd(found);
    if (place < index || place > index + address.length) continue;
    try {
      return address.includes('\ufffd') ? null : new URL(address).href;
    } catch {
      return null;
    }
  }
  return null;
}

const isRow = (element) => element?.className === 'line';

// The rows that go on in each other around one: what fills a row goes on in the next.
function rowsAround(row, columns) {
  const isFull = (element) => isRow(element) && element.textContent.length >= columns;
  const rows = [row];
  while (isFull(rows[0].previousElementSibling)) rows.unshift(rows[0].previousElementSibling);
  while (isFull(rows[rows.length - 1]) && isRow(rows[rows.length - 1].nextElementSibling)) rows.push(rows[rows.length - 1].nextElementSibling);
  return rows;
}

// How many characters stand before a place, from the beginning of a row on.
function lengthUpTo(row, { node, offset }) {
  const before = document.createRange();
  before.setStart(row, 0);
  before.setEnd(node, offset);
  return before.toString().length;
}

/** Opens the address at which a person clicks, and shows where one stands. */
export class Addresses {
  #columns;

  /** @param {HTMLElement} element whose rows are looked at @param {boolean} isMac @param {() => number} columns of a full row */
  constructor(element, isMac, columns) {
    this.#columns = columns;
    const at = (event) => ((isMac ? event.metaKey : event.ctrlKey) ? this.#at(event) : null);
    element.addEventListener('click', (event) => {
      const address = at(event);
      if (address !== null) open(address, '_blank', 'noopener,noreferrer');
    });
    element.addEventListener('mousemove', (event) => { element.toggleAttribute('data-address', at(event) !== null); });
    addEventListener('keyup', () => { element.removeAttribute('data-address'); });
  }

  #at({ clientX, clientY }) {
    const place = placeAt(clientX, clientY);
    const node = place?.node instanceof Element ? place.node : place?.node.parentElement;
    const row = node?.closest('.line');
    if (!row) return null;
    const rows = rowsAround(row, this.#columns());
    const before = rows.slice(0, rows.indexOf(row)).reduce((sum, it) => sum + it.textContent.length, 0);
    return addressAt(rows.map((it) => it.textContent).join(''), before + lengthUpTo(row, place));
  }
}
