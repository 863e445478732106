// What is pasted. Several lines are asked about, since each may be a command that the host does at once.

/** The most bytes that are pasted, in UTF-8. */
export const MOST = 262144;
// How much of it is shown.
const SHOWN = 2000;

/** How many lines and bytes a text has. A line that is finished begins no other one. */
export function sizeOf(text) {
  const lines = text.split(/\r\n|\r|\n/);
  if (lines.at(-1) === '') lines.pop();
  return { lines: lines.length, bytes: new TextEncoder().encode(text).length };
}

/** Pastes texts into a terminal: `asking` is a dialog, `type` types, `tell` tells why one isn't pasted. */
export class Paster {
  #asking;
  #type;
  #tell;
  #isAsked;
  #stopAsking;
  #text = '';

  /**
   * @param {HTMLDialogElement} asking @param {(text: string) => void} type @param {(words: string) => void} tell
   * @param {() => boolean} isAsked  whether it is asked @param {() => void} stopAsking
   */
  constructor(asking, type, tell, isAsked, stopAsking) {
    this.#asking = asking;
    this.#type = type;
    this.#tell = tell;
    this.#isAsked = isAsked;
    this.#stopAsking = stopAsking;
    asking.addEventListener('close', () => this.#answer());
  }

  paste(text) {
    const { lines, bytes } = sizeOf(text);
    if (bytes > MOST) return this.#tell(`This is too long to paste: it has ${bytes.toLocaleString('en')} bytes, and at most ${MOST.toLocaleString('en')} are pasted. Nothing was sent.`);
    if (lines < 2 || !this.#isAsked()) return this.#type(text);
    const [title, sample] = this.#asking.querySelectorAll('h1, pre');
    title.textContent = `Paste ${lines.toLocaleString('en')} lines?`;
    sample.textContent = text.length > SHOWN ? `${text.slice(0, SHOWN)}…` : text;
    this.#text = text;
    this.#asking.returnValue = '';
    this.#asking.querySelector('input').checked = false;
    this.#asking.showModal();
  }

  // The session may be over by now.
  #answer() {
    const text = this.#text;
    this.#text = '';
    if (this.#asking.returnValue !== 'paste') return;
    if (this.#asking.querySelector('input').checked) this.#stopAsking();
    this.#type(text);
  }

  /** Takes a question back. */
  forget() {
    this.#asking.close();
  }
}
