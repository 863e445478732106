// Addresses, links, and what the forms say of their fields.
import assert from 'node:assert/strict';
import test from 'node:test';
import { module } from './page.mjs';

const { faultOf, formOf, joinBy, linkOf, requestOf, sizeOf, titleOf } = await module('request');
const ID = '$01234567-89ab-4cde-8f01-23456789abcd';
const LINK = `https://h/a/#id=%24${ID.slice(1)}`;

const equal = (name, got, wanted) => test(name, () => assert.deepEqual(got, wanted));
const ROOM = { columns: 107, rows: 33 };
const formFor = (address) => { const asked = requestOf(address); return formOf(asked, sizeOf(asked, ROOM)); };
equal('an address to look on', requestOf('#id=$1&read-only'), { id: '$1', readOnly: true, keepsSize: false, isLink: false });
equal('an address that keeps the size', requestOf('#id=$1&keep-size'), { id: '$1', readOnly: false, keepsSize: true, isLink: false });
equal('whose size stays', ['#hostname=h', '#hostname=h&keep-size', '#hostname=h&columns=80', '#hostname=h&rows=24'].map((it) => requestOf(it).keepsSize), [false, true, true, true]);
equal('a size of which a part is given', sizeOf(requestOf('#hostname=h&columns=132'), ROOM), { columns: 132, rows: 33 });
equal('nothing asked', requestOf(''), null);
equal('a form that joins', formOf({ id: '$1', readOnly: false }), { id: '$1', 'read-only': 'false' });
equal('a form that opens', formFor('#hostname=h'), { hostname: 'h', port: '23', 'terminal-type': 'linux', sharing: 'control', width: '856', height: '528' });
equal('a form of a size and a type', formFor('#hostname=h&port=2323&columns=132&rows=50&terminal-type=vt100'), { hostname: 'h', port: '2323', 'terminal-type': 'vt100', sharing: 'control', width: '1056', height: '800' });
equal('a link for others', linkOf({ id: ID, readOnly: false }, 'https://h/a/#x'), LINK);
equal('a link to look on', linkOf({ id: ID, readOnly: true }, LINK), `${LINK}&read-only`);
equal('a link that keeps the size', linkOf({ id: ID, readOnly: false, keepsSize: true }, LINK), `${LINK}&keep-size`);
equal('an ID that is joined and keeps its size', joinBy(ID, { keepsSize: true }, 'https://h/a/'), `${LINK}&keep-size`);
equal('a link that is joined and keeps its size', joinBy(`${LINK}&keep-size`, {}, 'https://h/a/'), `${LINK}&keep-size`);
equal('an address of a link', requestOf('#id=$1&link&read-only'), { id: '$1', readOnly: true, keepsSize: false, isLink: true });
equal('the address of a link', linkOf({ id: ID, readOnly: true, isLink: true }, 'https://h/a/#x'), `${LINK}&link&read-only`);
equal('a link that was made', joinBy(`${LINK}&link`, {}, 'https://h/b/'), `${LINK}&link`);
equal('an ID that is joined', joinBy(ID, {}, 'https://h/a/'), LINK);
equal('a link that is joined', joinBy(`${LINK}&read-only`, {}, 'https://h/b/'), `${LINK}&read-only`);
equal('a link that is looked on', joinBy(LINK, { readOnly: true }, 'https://h/b/'), `${LINK}&read-only`);
equal('a link of a class', joinBy(`https://h/class/${ID}/`, {}, 'https://h/b/'), `https://h/class/${ID}/#id=%24${ID.slice(1)}`);
equal('titles', [{ hostname: 'h' }, { id: ID, readOnly: false }, { id: ID, readOnly: true }].map(titleOf), ['h', 'session $01234567', 'looking on at $01234567']);

const right = { hostname: ['h', '::1'], port: ['1', '65535', '0023'], columns: ['1', '512', ''], rows: ['1', '256', ''], 'terminal-type': ['linux', 'a'.repeat(40)], session: [ID, LINK] };
const wrong = { hostname: ['', ' '], port: ['0', '65536', '-1', 'x', '', '1e3'], columns: ['0', '513', '8.5'], rows: ['0', '257', ' '], 'terminal-type': ['', 'a b', 'a'.repeat(41)], session: ['$1', ''] };
for (const [name, values] of Object.entries(right)) test(`${name} in form`, () => values.forEach((it) => assert.equal(faultOf(name, it), '')));
for (const [name, values] of Object.entries(wrong)) test(`${name} out of form`, () => values.forEach((it) => assert.match(faultOf(name, it), /^[A-Z].*\.$/)));
