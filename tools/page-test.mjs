#!/usr/bin/env node
// Tries the modules of web/ without a browser, each by a file of tools/page: the text of a screen against what the
// built `look` reads of the same frames, and all else with a network and a page that aren't real. Where TypeScript is
// there, the types that the page's comments tell are checked too. The status is 1 where something differs.
import { spawnSync } from 'node:child_process';
import { cpSync, mkdtempSync, readdirSync, rmSync, writeFileSync } from 'node:fs';
import { tmpdir } from 'node:os';
import { join } from 'node:path';
import { fileURLToPath } from 'node:url';

const top = fileURLToPath(new URL('..', import.meta.url));
if (Number(process.versions.node.split('.')[0]) < 18) {
  console.log('skipped: the page needs node 18 or later');
  process.exit(0);
}
// A copy of the page, since node takes its files as modules only where a package.json says so.
const page = mkdtempSync(join(tmpdir(), 'page-'));
process.on('exit', () => rmSync(page, { recursive: true }));
cpSync(join(top, 'web'), page, { recursive: true });
writeFileSync(join(page, 'package.json'), '{ "type": "module" }');

const folder = join(top, 'tools/page');
const files = readdirSync(folder).filter((it) => it.endsWith('.test.mjs')).map((it) => join(folder, it));
const tried = spawnSync(process.execPath, ['--test', ...files], { env: { ...process.env, PAGE: page }, encoding: 'utf8', maxBuffer: 2 ** 30 });
const counted = /^(?:#|ℹ) (?:pass|fail|skipped) [0-9]+$/gm;
if (tried.status !== 0) console.log(tried.stdout);
console.log(`the page: ${(tried.stdout.match(counted) ?? []).map((it) => it.replace(/^\S+ /, '')).join(', ')}`);

function typesAreRight() {
  const options = ['--allowJs', '--checkJs', '--noEmit', '--target', 'es2022', '--module', 'es2022', '--lib', 'es2022,dom,dom.iterable'];
  const checked = spawnSync('tsc', [...options, ...readdirSync(page).filter((it) => it.endsWith('.js'))], { cwd: page, encoding: 'utf8' });
  if (checked.error) return console.log('skipped: the types of the page need tsc') ?? true;
  console.log(checked.status === 0 ? 'the types of the page: right' : checked.stdout);
  return checked.status === 0;
}

process.exit(typesAreRight() && tried.status === 0 ? 0 : 1);
