// What the tests of the page stand on: its modules, from the copy that `tools/page-test.mjs` has made, and frames.
import { spawnSync } from 'node:child_process';
import { existsSync, readFileSync, readdirSync } from 'node:fs';
import { join } from 'node:path';
import { fileURLToPath, pathToFileURL } from 'node:url';

export const TOP = fileURLToPath(new URL('../..', import.meta.url));
const [GUACGATE, LOOK] = ['guacgate', 'look'].map((name) => join(TOP, 'crates', name, 'out', name));

/** A module of the page. */
export const module = (name) => import(pathToFileURL(join(process.env.PAGE, `${name}.js`)));

/** Timers that aren't real, of which one waits at most, and what lets their time pass, in milliseconds. */
export function clock() {
  let [now, waiting] = [0, null];
  const timers = { now: () => now, set: (act, time) => { waiting = { act, at: now + time }; return 1; }, clear: () => { waiting = null; } };
  const pass = (time) => {
    now += time;
    if (waiting === null || waiting.at > now) return;
    const { act } = waiting;
    waiting = null;
    act();
  };
  return { timers, pass };
}

/** Whether the programs are built that recordings are played with. */
export const isBuilt = existsSync(GUACGATE) && existsSync(LOOK);

const run = (program, args, input) => spawnSync(program, args, { input, maxBuffer: 2 ** 30 });

/** The recordings of docs/recordings. */
export const recordings = readdirSync(join(TOP, 'docs/recordings')).filter((it) => !it.endsWith('.times'));

/** The frames that the built gateway draws of a recording on a screen of 80 by 24, as viewer 1 is given them, each line
 *  of the recording one. */
export function framesOf(recording) {
  const input = readFileSync(join(TOP, 'docs/recordings', recording));
  const lines = run(GUACGATE, ['draw', '80', '24'], input).stderr.toString().split('\n');
  return lines.filter((it) => it.startsWith('1 ')).map((it) => it.slice(2)).join('');
}

/** What `look` shows of frames, as `words` ask. */
export const seen = (frames, ...words) => run(LOOK, words, frames).stdout;
