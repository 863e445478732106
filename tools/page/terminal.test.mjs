// The terminal type that the page tells: the first that `tools/terminal-types` names of Debian's ncurses-base, and the
// entry of our own, of which it finds nothing that isn't done.
import assert from 'node:assert/strict';
import { spawnSync } from 'node:child_process';
import { existsSync, mkdtempSync, rmSync } from 'node:fs';
import { tmpdir } from 'node:os';
import { join } from 'node:path';
import test from 'node:test';
import { TOP, module } from './page.mjs';

const { TERMINAL_TYPE } = await module('request');
const run = (program, ...words) => spawnSync(program, words, { encoding: 'utf8' });
const isThere = ['python3', 'infocmp', 'tic', 'toe'].every((it) => run('which', it).status === 0) && existsSync('/lib/terminfo/l/linux');
const skip = !isThere && 'needs python3, infocmp, tic, toe and ncurses-base';
const types = (...words) => run(join(TOP, 'tools/terminal-types'), ...words).stdout;

test('the best type of ncurses-base', { skip }, () => assert.equal(types().split(':')[0], TERMINAL_TYPE));

test('the entries of our own', { skip }, () => {
  const entries = mkdtempSync(join(tmpdir(), 'entries-'));
  try {
    assert.equal(run('tic', '-x', '-o', entries, join(TOP, 'deploy/guacgate.ti')).stderr, '');
    for (const type of ['guacgate', 'guacgate-256color']) {
      assert.equal(types('--entries', entries, type), `${type}: 0 promises broken, 0 read over, 0 keys others\n`);
    }
  } finally {
    rmSync(entries, { recursive: true });
  }
});
