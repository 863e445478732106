// The instructions of the Guacamole protocol as text: elements of a length, a `.` and a value, with `,` between
// them and `;` at the end. A length counts Unicode characters, and a string of JavaScript has two units for some.

/** What can't be read as instructions. */
export class Unreadable extends Error {}

// Where the value of so many characters that begins at `start` ends.
function endOf(text, start, characters) {
  const end = start + characters;
  // Only a value with surrogates is longer than its characters.
  if (!/[\ud800-\udfff]/.test(text.slice(start, end))) return end;
  let at = start;
  for (let n = 0; n < characters && at < text.length; n++) at += text.codePointAt(at) > 0xffff ? 2 : 1;
  return at;
}

/** The instructions of a text from a place on, each with the place behind it. One that isn't finished is left out. */
export function* instructionsFrom(text, start) {
  let at = start;
  while (at < text.length) {
    const instruction = [];
    for (let separator = ','; separator === ',';) {
      const dot = text.indexOf('.', at);
      const length = text.slice(at, dot < 0 ? text.length : dot);
      if (dot < 0 && /^[0-9]{0,5}$/.test(length)) return;
      if (!/^[0-9]{1,5}$/.test(length)) throw new Unreadable(`no length at ${at}`);
      const end = endOf(text, dot + 1, Number(length));
      if (end >= text.length) return;
      instruction.push(text.slice(dot + 1, end));
      separator = text[end];
      if (separator !== ',' && separator !== ';') throw new Unreadable(`no end at ${end}`);
      at = end + 1;
    }
    yield { instruction, end: at };
  }
}

/** Reads instructions of a text that comes in pieces. */
export class Reader {
  #rest = '';

  /** The instructions, each a list of its elements, that are finished by a piece. */
  read(piece) {
    const text = this.#rest + piece;
    const found = [...instructionsFrom(text, 0)];
    this.#rest = text.slice(found.at(-1)?.end ?? 0);
    return found.map(({ instruction }) => instruction);
  }

  /** Whether no instruction is left unfinished. */
  get isWhole() {
    return this.#rest === '';
  }
}

/** The text of an instruction. */
export function textOf(...elements) {
  return elements.map((element) => `${[...String(element)].length}.${element}`).join(',') + ';';
}
