// Links by which others join the session that a page shows. Whoever has the session's ID may make them and take them back
// (docs/PROTOCOL.md, "Links"); a link's own ID is another, and leads to no further link.

import { wordsOfLinks } from './messages.js';
import { linkOf } from './request.js';
import { Refusal, TIMES } from './tunnel.js';

/** How often a link may be used. */
export const USES = { least: 1, most: 1000000 };

// How often one is used where nobody says: each who comes back uses it too, and with a class all do at once.
const USUAL = { view: '1000', control: '10' };

/**
 * A link that was made here.
 * @typedef {{ id: string, readOnly: boolean, uses: number, keepsSize: boolean }} Link
 */

// Where a tab keeps the links that it has made.
const KEY = 'guacgate-links';

/** What the gateway answers to a request for links. */
async function answerTo(address, query, body = '') {
  const abort = new AbortController();
  const timer = setTimeout(() => abort.abort(), TIMES.limit);
  try {
    const response = await fetch(`${address}?${query}`, { method: 'POST', body, cache: 'no-store', signal: abort.signal });
    if (!response.ok) throw new Refusal(Number(response.headers.get('Guacamole-Status-Code')) || 0, response.status);
    return await response.text();
  } catch (fault) {
    throw fault instanceof Refusal ? fault : new Refusal(0, 0);
  } finally {
    clearTimeout(timer);
  }
}

/** The links that a tab has made, by session. */
export class Links {
  #address;
  #session = '';
  /** @type {Link[]} */
  made = [];

  constructor(address) {
    this.#address = address;
  }

  /** Has those of a session from now on. */
  use(session) {
    if (session === this.#session) return;
    this.#session = session;
    let kept = null;
    try { kept = JSON.parse(sessionStorage.getItem(KEY) ?? 'null'); } catch { /* Then they are forgotten. */ }
    this.made = kept?.session === session ? kept.made : [];
  }

  /** Makes one, and answers it. @param {{ readOnly: boolean, uses: number, keepsSize: boolean }} asked @returns {Promise<Link>} */
  async make(asked) {
    const form = new URLSearchParams({ id: this.#session, role: asked.readOnly ? 'view' : 'control', uses: String(asked.uses) });
    const link = { ...asked, id: await answerTo(this.#address, 'make', String(form)) };
    this.#keep([...this.made, link]);
    return link;
  }

  /** Takes one back: nobody else joins by it. One that the gateway doesn't know leads nowhere either. @param {Link} link */
  async revoke(link) {
    await answerTo(this.#address, `revoke:${link.id.replace('$', '')}`).catch((refusal) => {
      if (refusal.code !== 516) throw refusal;
    });
    this.#keep(this.made.filter((it) => it !== link));
  }

  #keep(made) {
    this.made = made;
    try { sessionStorage.setItem(KEY, JSON.stringify({ session: this.#session, made })); } catch { /* They are known until the page is left. */ }
  }
}

/** Whether a text is a number of uses. */
export const isUses = (text) => /^[0-9]{1,7}$/.test(text) && Number(text) >= USES.least && Number(text) <= USES.most;

/** The panel that makes links, and lists them. */
export class Share {
  #panel;
  #links;
  #keepsSize;

  /** @param {HTMLElement} panel @param {Links} links @param {() => boolean} keepsSize  whether who types by a link keeps the size */
  constructor(panel, links, keepsSize) {
    this.#panel = panel;
    this.#links = links;
    this.#keepsSize = keepsSize;
    const form = panel.querySelector('form');
    const uses = /** @type {HTMLInputElement} */ (form.elements.namedItem('uses'));
    const role = /** @type {HTMLSelectElement} */ (form.elements.namedItem('role'));
    let isChosen = false;
    role.addEventListener('change', () => { if (!isChosen) uses.value = USUAL[role.value]; });
    uses.addEventListener('input', () => { isChosen = true; });
    uses.addEventListener('input', () => uses.setCustomValidity(isUses(uses.value) ? '' : 'A number from 1 to 1,000,000.'));
    form.addEventListener('submit', (event) => {
      event.preventDefault();
      const given = new FormData(form);
      this.#try('make', () => this.#make(given.get('role') === 'view', Number(given.get('uses'))));
    });
  }

  /** Shows the links to a session, or is hidden where its ID isn't known. */
  use(session) {
    this.#panel.hidden = session === '';
    this.#links.use(session);
    this.#tell('');
    this.#list();
  }

  async #make(readOnly, uses) {
    const link = await this.#links.make({ readOnly, uses, keepsSize: this.#keepsSize() });
    this.#list();
    await this.#copy(link);
  }

  async #copy(link) {
    const field = this.#panel.querySelector(`[data-link="${link.id}"] input`);
    if (field instanceof HTMLInputElement) field.select();
    try {
      await navigator.clipboard.writeText(addressOf(link));
      this.#tell('The link is copied.');
    } catch {
      // A page that came without encryption can't copy by itself.
      this.#tell('Copy the link from its field.');
    }
  }

  async #revoke(link) {
    await this.#links.revoke(link);
    this.#list();
    this.#tell('Nobody else joins by that link. Who is here stays.');
  }

  /** @param {'make' | 'revoke'} what */
  async #try(what, act) {
    try {
      await act();
    } catch (refusal) {
      this.#tell(wordsOfLinks(refusal, what));
    }
  }

  #tell(words) {
    this.#panel.querySelector('[role=status]').textContent = words;
  }

  #list() {
    const parts = this.#links.made.map((link) => {
      const line = document.createElement('li');
      line.dataset.link = link.id;
      const what = `${link.readOnly ? 'looks on' : 'types'}, ${link.uses === 1 ? 'once' : `${link.uses.toLocaleString('en')} times`}`;
      const field = Object.assign(document.createElement('input'), { readOnly: true, value: addressOf(link) });
      field.setAttribute('aria-label', `link: ${what}`);
      const words = Object.assign(document.createElement('span'), { textContent: what });
      line.append(words, buttonOf('Copy', () => this.#try('make', () => this.#copy(link))), buttonOf('Revoke', () => this.#try('revoke', () => this.#revoke(link))), field);
      return line;
    });
    this.#panel.querySelector('ul').replaceChildren(...parts);
  }
}

const addressOf = (link) => linkOf({ ...link, isLink: true }, location.href);

function buttonOf(word, act) {
  const button = Object.assign(document.createElement('button'), { type: 'button', textContent: word });
  button.addEventListener('click', act);
  return button;
}
