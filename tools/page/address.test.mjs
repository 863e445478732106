// Addresses of pages in the text of a terminal.
import assert from 'node:assert/strict';
import test from 'node:test';
import { module } from './page.mjs';

const { addressAt } = await module('address');

test('an address at a place, and none beside it', () => {
  const text = 'see https://example.com/a?b=c#d now';
  assert.equal(addressAt(text, 3), null);
  for (const place of [4, 20, 31]) assert.equal(addressAt(text, place), 'https://example.com/a?b=c#d');
  assert.equal(addressAt(text, 32), null);
});

test('the one of several', () => {
  const text = 'http://a/x http://b/y';
  assert.equal(addressAt(text, 2), 'http://a/x');
  assert.equal(addressAt(text, 12), 'http://b/y');
});

test('what ends a sentence, or closes a bracket before it, is not of it', () => {
  const all = [
    ['http://a/b.', 'http://a/b'],
    ['(http://a/b).', 'http://a/b'],
    ['http://a/b_(c)', 'http://a/b_(c)'],
    ["'http://a/b',", 'http://a/b'],
    ['<http://a/b>', 'http://a/b'],
    ['"http://a/b"', 'http://a/b'],
    ['[http://[::1]:8080/b]', 'http://[::1]:8080/b'],
    ['http://a/b?!', 'http://a/b'],
  ];
  for (const [text, address] of all) assert.equal(addressAt(text, 4), address, text);
});

test('letters of all scripts, and none that is not known', () => {
  assert.equal(addressAt('https://de.example/Köln', 3), 'https://de.example/K%C3%B6ln');
  assert.equal(addressAt('https://example/a\ufffdb', 3), null);
});

test('no other scheme, and nothing that is no address', () => {
  for (const text of ['javascript://a/b', 'file:///etc/passwd', 'ftp://a/b', 'xhttp://a/b', 'http://', 'http://:80', 'https://[']) assert.equal(addressAt(text, 3), null, text);
});
