// The drawing machine, by docs/PROTOCOL.md ("The instructions"): four pixels grey, one of them then
// black, and two clear; and of each recording the pixels that the gateway's own canvas has.
import assert from 'node:assert/strict';
import test from 'node:test';
import { framesOf, isBuilt, module, recordings, seen } from './page.mjs';

const { Unreadable, instructionsFrom } = await module('instructions');
const { Layers } = await module('layers');

const [GREY, BLACK, CLEAR] = [0xffaaaaaa, 0xff000000, 0];
const EXAMPLE = '4.size,1.0,1.3,1.2;4.rect,1.0,1.0,1.0,1.2,1.2;5.cfill,2.14,1.0,3.170,3.170,3.170,3.255;4.rect,1.0,1.0,1.0,1.1,1.1;5.cfill,2.14,1.0,1.0,1.0,1.0,3.255;';

function drawn(text) {
  const layers = new Layers();
  for (const { instruction } of instructionsFrom(text, 0)) layers.draw(instruction);
  return layers.visible;
}

const cases = {
  'the example': [EXAMPLE, BLACK, GREY, CLEAR, GREY, GREY, CLEAR],
  'a copy over itself reads before it writes': [`${EXAMPLE}4.copy,1.0,1.0,1.0,1.2,1.2,2.14,1.0,1.1,1.0;`, BLACK, BLACK, GREY, GREY, GREY, GREY],
  'clear pixels leave what is there': [`${EXAMPLE}4.copy,1.0,1.2,1.0,1.1,1.2,2.14,1.0,1.0,1.0;`, BLACK, GREY, CLEAR, GREY, GREY, CLEAR],
  'a smaller size keeps the common part': [`${EXAMPLE}4.size,1.0,1.2,1.1;`, BLACK, GREY],
  'what was cut off comes back clear': [`${EXAMPLE}4.size,1.0,1.1,1.2;4.size,1.0,1.2,1.2;`, BLACK, CLEAR, GREY, CLEAR],
};
for (const [name, [text, ...pixels]] of Object.entries(cases)) test(name, () => assert.deepEqual([...drawn(text).pixels], pixels));
for (const text of ['4.size,1.1,1.8,1.8;', '4.size,5.-1025,1.8,1.8;', '4.size,1.0,4.4097,1.1;', '5.cfill,2.12,1.0,1.0,1.0,1.0,3.255;', '5.cfill,2.14,1.0,1.0,1.0,1.0,3.254;']) {
  test(`outside the profile: ${text}`, () => assert.throws(() => drawn(text), Unreadable));
}

for (const name of recordings) {
  test(`the pixels of ${name}`, { skip: !isBuilt && 'needs guacgate and look built' }, () => {
    const frames = framesOf(name);
    const { width, height, pixels } = drawn(frames);
    const head = `P6\n${width} ${height}\n255\n`;
    const body = Buffer.alloc(pixels.length * 3);
    pixels.forEach((pixel, at) => { for (let k = 0; k < 3; k++) body[at * 3 + k] = (pixel >> (8 * k)) & 255; });
    const shown = seen(frames, 'ppm');
    assert.equal(shown.subarray(0, head.length).toString(), head);
    assert.equal(Buffer.compare(body, shown.subarray(head.length)), 0);
  });
}
