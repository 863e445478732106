// What is selected in the rows of a terminal, as text.

/** The text that is selected within an element's rows: a line each, without the blanks at its end. */
export function selectedText(element) {
  const selection = document.getSelection();
  if (selection === null || selection.isCollapsed || selection.rangeCount === 0) return '';
  const range = selection.getRangeAt(0);
  if (!range.intersectsNode(element)) return '';
  const rows = [...element.querySelectorAll('.line')].filter((row) => range.intersectsNode(row));
  const lines = rows.map((row) => partOf(row, range).replace(/[ \n]+$/, ''));
  // A whole line is selected up to the beginning of the next one, which isn't meant.
  const last = rows[rows.length - 1];
  if (lines.length > 1 && last.contains(range.endContainer) && isBefore(range, last)) lines.pop();
  return lines.join('\n');
}

// The text of the part of a row that lies in a range.
function partOf(row, range) {
  const part = document.createRange();
  part.selectNodeContents(row);
  if (row.contains(range.startContainer)) part.setStart(range.startContainer, range.startOffset);
  if (row.contains(range.endContainer)) part.setEnd(range.endContainer, range.endOffset);
  return part.toString();
}

// Whether a range ends before the first character of a row.
function isBefore(range, row) {
  const start = document.createRange();
  start.selectNodeContents(row);
  start.setEnd(range.endContainer, range.endOffset);
  return start.toString() === '' && row.textContent !== '';
}

/** Copies what is selected, as the browser's menu does. It answers whether something was. */
export function copySelected(element) {
  return selectedText(element) !== '' && document.execCommand('copy');
}

/** Gives the browser the text of an element's rows, whenever what is selected there is copied. */
export function copyAsLines(element) {
  document.addEventListener('copy', (event) => {
    const text = selectedText(element);
    if (text === '' || document.activeElement instanceof HTMLInputElement) return;
    event.clipboardData.setData('text/plain', text);
    event.preventDefault();
  });
}

/** What a click in the rows of a terminal does: it tells that keys are wanted, where nothing was selected by it, and with
 *  Shift it selects from the click before. */
export class Mouse {
  #node = null;
  #offset = 0;

  constructor(element, wantsKeys) {
    element.addEventListener('mousedown', (event) => this.#extend(event));
    element.addEventListener('click', () => {
      if (selectedText(element) !== '') return;
      const selection = document.getSelection();
      if (element.contains(selection?.anchorNode ?? null)) [this.#node, this.#offset] = [selection.anchorNode, selection.anchorOffset];
      wantsKeys();
    });
  }

  // The browser does so itself where something is selected.
  #extend(event) {
    const selection = document.getSelection();
    if (!event.shiftKey || event.button !== 0 || selection?.isCollapsed === false || !this.#node?.isConnected) return;
    const place = placeAt(event.clientX, event.clientY);
    if (place === null) return;
    event.preventDefault();
    // Keys go to the terminal again once one is pressed, and the selection ends then.
    /** @type {HTMLElement} */ (document.activeElement)?.blur();
    const length = this.#node.data?.length ?? this.#node.childNodes.length;
    selection.setBaseAndExtent(this.#node, Math.min(this.#offset, length), place.node, place.offset);
  }
}

/** The place in the page's text at a point of the window. */
export function placeAt(x, y) {
  const document = /** @type {any} */ (globalThis.document);
  if (document.caretPositionFromPoint) {
    const place = document.caretPositionFromPoint(x, y);
    return place && { node: place.offsetNode, offset: place.offset };
  }
  const range = document.caretRangeFromPoint?.(x, y);
  return range ? { node: range.startContainer, offset: range.startOffset } : null;
}
