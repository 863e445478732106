// The lines above the screen, and the screen, as a file of text.

// How long, in milliseconds, a browser may take until it has read what it is given.
const READ = 10000;

/** All lines of an element, with the marks where some may be missing, and without the empty ones at its end. */
export function linesIn(element) {
  const lines = [...element.querySelectorAll('.line, .gap')].map((it) => `${it.textContent.trimEnd()}\n`);
  return lines.join('').replace(/\n+$/, '\n');
}

/** Has the browser keep a text as a file. */
export function saveAs(name, text) {
  const link = document.createElement('a');
  link.href = URL.createObjectURL(new Blob([text], { type: 'text/plain' }));
  link.download = name;
  link.click();
  setTimeout(() => URL.revokeObjectURL(link.href), READ);
}
