// node try.js BAGGAGE.node: it says nothing where all is well.
const assert = require('assert');
const path = require('path');
const { update, field, toHeader, extract, toBinary, fromBinary, ingress } = require(path.resolve(process.argv[2]));

const text = (it) => Buffer.from(it);
const table = text('baggage table 1\n0 0 id scalar fixed32\n0 1 tags set string\n0 2 hops counter\n');
const none = 2n ** 64n - 1n;

const first = update(table, [], text('id 7\ntags "a"\n'), none);
const second = update(table, [], text('id 9\nhops "cart":3\n'), none);
const both = update(table, [first, second], text(''), none);
assert.strictEqual(both.toString('hex'), '02f80005000000000702f80102006102f80205f163617274020003');
assert.deepStrictEqual(field(table, both, text('tags')), { text: '{"a"}', exact: true });
const cut = update(table, [both], text(''), 14n);
assert(cut.length <= 14);
assert.deepStrictEqual(field(table, cut, text('hops')), { text: '0{}', exact: false });
assert.strictEqual(field(table, update(table, [Buffer.alloc(0)], text(`tags "${'x'.repeat(500)}"\n`), none), text('tags')).text.length, 504);
assert.throws(() => update(table, [first.subarray(0, 2)], text(''), none), { code: '1' });
assert.throws(() => field(table, both, text('tags'), 4), { code: '2' });
assert.strictEqual(field(table, both, text('tags'), 5).text, '{"a"}');
assert.throws(() => field(table, both, text('tags'), 'x'), { name: 'TypeError' });
const million = update(table, [], text(Array.from({ length: 20 }, (_, k) => `tags "${String.fromCharCode(97 + k).repeat(60000)}"\n`).join('')), none);
assert.throws(() => field(table, million, text('tags')), { code: '2' });
assert(field(table, million, text('tags'), 2 ** 40).text.length > 2 ** 20);
assert.throws(() => update(table, [], text('id x\n'), none), { code: '8', message: 'no write' });
assert.throws(() => update(table, [], text(''), 0n), { code: '5' });

// Memory that other threads share may change while it is read, so it is refused.
const shared = new Uint8Array(new SharedArrayBuffer(first.length));
shared.set(first);

// Whatever is no Buffer is refused, and isn't taken for the empty context.
const wrongType = { name: 'TypeError', code: 'ERR_INVALID_ARG_TYPE' };
const detached = new Uint8Array(first);
structuredClone(detached.buffer, { transfer: [detached.buffer] });
const detaching = [new Uint8Array(first), first];
Object.defineProperty(detaching, 1, { get: () => (structuredClone(detaching[0].buffer, { transfer: [detaching[0].buffer] }), first) });
for (const wrong of [undefined, null, 7, 7n, true, 'id 7\n', '', {}, [], [first], first.buffer, new Float64Array(2), new DataView(new ArrayBuffer(8)), detached, shared]) {
  assert.throws(() => update(wrong, [first], text(''), none), wrongType);
  assert.throws(() => update(table, [wrong], text(''), none), wrongType);
  assert.throws(() => update(table, [first, wrong], text(''), none), wrongType);
  assert.throws(() => update(table, [first], wrong, none), wrongType);
  assert.throws(() => field(wrong, first, text('id')), wrongType);
  assert.throws(() => field(table, wrong, text('id')), wrongType);
  assert.throws(() => field(table, first, wrong), wrongType);
}
for (const wrong of [undefined, null, 7, 'ab', {}, first, { length: 1, 0: first }]) assert.throws(() => update(table, wrong, text(''), none), wrongType);
for (const wrong of [undefined, null, 14, '14', {}]) assert.throws(() => update(table, [first], text(''), wrong), wrongType);
for (const wrong of [-1n, -(2n ** 63n), 2n ** 64n, 2n ** 64n + 5n, 2n ** 128n]) {
  assert.throws(() => update(table, [both], text(''), wrong), { name: 'RangeError', code: 'ERR_OUT_OF_RANGE' });
}
assert.throws(() => update(table), wrongType);
assert.throws(() => field(table), wrongType);
assert.throws(() => update(table, new Array(2 ** 32 - 1), text(''), none));
assert.throws(() => update(table, detaching, text(''), none), wrongType);
assert.throws(() => update(table, Object.defineProperty([], 0, { get: () => { throw new Error('mine'); } }), text(''), none), { message: 'mine' });
assert.deepStrictEqual(update(table, [new Uint8Array(first), Buffer.alloc(0)], new Uint8Array(0), none), first);

// Headers, and carriers of bytes.
assert.strictEqual(toHeader(Buffer.from('02f800050000000007', 'hex')), 'AvgABQAAAAAH.Ktg3xw');
assert.strictEqual(toHeader(Buffer.alloc(0)), '.AAAAAA');
assert.strictEqual(extract([text(' AvgABQAAAAAH.Ktg3xw'), text('.AAAAAA')]).toString('hex'), '02f800050000000007');
assert.strictEqual(extract([text('AvgABQAAAAAH.Ktg3xw,')]).toString('hex'), '0002f800050000000007');
assert.strictEqual(extract([]).toString('hex'), '00');
assert.strictEqual(toBinary(first).subarray(0, 4).toString('hex'), 'ffffff02');
assert.deepStrictEqual(fromBinary(toBinary(first)), first);
for (const wrong of [toBinary(first).subarray(0, 20), Buffer.alloc(0), text('x')]) assert.strictEqual(fromBinary(wrong).toString('hex'), '00');
assert.throws(() => toBinary(text('x')), { code: '1' });

// What strangers send.
assert.strictEqual(ingress(table, [text(toHeader(both))], {}).toString('hex'), both.toString('hex'));
assert.strictEqual(ingress(table, [text(toHeader(both))], { budget: 14 }).length <= 14, true);
assert.strictEqual(ingress(table, [text('x')], {}).toString('hex'), '00');
assert.strictEqual(ingress(table, [text('x')], { dropsPartial: true }).length, 0);
for (const wrong of [undefined, null, shared, 'x', detached, {}]) {
  for (const call of [toHeader, toBinary, fromBinary]) assert.throws(() => call(wrong), wrongType);
  assert.throws(() => extract([wrong]), wrongType);
  assert.throws(() => ingress(table, [wrong], {}), wrongType);
  assert.throws(() => ingress(wrong, [], {}), wrongType);
}
for (const wrong of [undefined, null, { parts: -1 }, { parts: 1.5 }, { letters: '8' }, { budget: 2 ** 32 }, { dropsPartial: 1 }]) assert.throws(() => ingress(table, [], wrong), wrongType);
assert.throws(() => ingress(text('x'), [], {}), { code: '6' });
const moving = [new Uint8Array(first)];
const moves = { get parts() { structuredClone(moving[0].buffer, { transfer: [moving[0].buffer] }); return 16; } };
assert.throws(() => ingress(table, moving, moves), wrongType);
