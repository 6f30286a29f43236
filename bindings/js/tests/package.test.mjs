// The package's own tests: node --test package.test.mjs
import assert from 'node:assert';
import { spawnSync } from 'node:child_process';
import http from 'node:http';
import { createRequire } from 'node:module';
import test from 'node:test';
import { inspect } from 'node:util';
import { Worker } from 'node:worker_threads';
import * as terncommode from '../src/bind.mjs';
import '../src/node.mjs';
import { carry, middleware, serve } from '../src/http.mjs';
import { held } from '../src/library.mjs';
import { add, count, current, run, Visit } from '../src/request.mjs';

const {
  BadTable, BadWrite, Bag, checkOf, Context, Counts, EMPTY, extract, extractMember, extractReply, Fault, fromBinary, fromHeader, IllTyped, ingress, inject, injectReply, LOST, NoField, noCache,
  OutOfMemory, quote, Stopped, toBinary, toHeader, TooLong, use, visible, withMember, withoutOwn, Writes,
} = terncommode;

const TABLE = `baggage table 1
0 0 id scalar fixed32
0 1 tags set string
0 2 hops counter
0 3 debug taint
0 4 load map string greatest sint64
0 5 point greatest (int32,bool,string)
0 6 raw scalar bytes
0 7 big scalar uint64
0 8 sets set (fixed64,bytes)
0 9 deep map bytes bag
1 0 seen taint
1 1 by counter
1 2 names map int32 set bytes
0 10 outer bag
1 3 flag scalar bool
1 4 least scalar int32
`;
const bag = new Bag(TABLE);
const hex = (context) => Buffer.from(context.bytes()).toString('hex');
const of = (digits) => new Context(Uint8Array.from(Buffer.from(digits, 'hex')));
const tagged = (...names) => bag.update([], { tags: names });

test('a context is valid, never changes, and shows nothing where it is printed', () => {
  const bytes = Uint8Array.from(Buffer.from('02f800050000000007', 'hex'));
  const context = new Context(bytes);
  bytes.fill(0xff);
  context.bytes().fill(0xff);
  assert.strictEqual(hex(context), '02f800050000000007');
  assert.throws(() => { context.length = 1; }, TypeError);
  assert.throws(() => { context.more = 1; }, TypeError);
  assert.deepStrictEqual([`${context}`, JSON.stringify({ context })], ['AvgABQAAAAAH.Ktg3xw', '{"context":"AvgABQAAAAAH.Ktg3xw"}']);
  assert.deepStrictEqual([inspect(context), inspect(LOST), inspect({ EMPTY })], ['Context(9 bytes, check Ktg3xw)', 'Context(lost)', '{ EMPTY: Context(0 bytes, check AAAAAA) }']);
  assert(Context.from(JSON.parse(JSON.stringify(context))).equals(context));
  for (const wrong of ['', 'x', `${context},`, `${context} `, undefined, 7, null]) assert(Context.from(wrong).equals(LOST));
  assert.deepStrictEqual([context.length, context.isLost, LOST.isLost, EMPTY.isLost], [9, false, true, false]);
  assert(context.join().equals(context) && context.join(LOST).isLost && !context.equals(EMPTY) && !context.equals(LOST));
  const wide = bag.update([], { raw: new Uint8Array(70_000) }, { form: 2 });
  assert(wide.length > 70_000 && !wide.isLost && wide.join(LOST).isLost && new Context(wide.bytes(2)).equals(wide));
});

test('what is no context, and no bytes, is refused and never taken for the empty context', () => {
  const given = new Uint8Array(9);
  structuredClone(given.buffer, { transfer: [given.buffer] });
  for (const wrong of [given, null, 7, 'ab', [], [2], {}, new ArrayBuffer(9), new Uint16Array(1), new DataView(new ArrayBuffer(2))]) assert.throws(() => new Context(wrong), TypeError);
  const shared = new Uint8Array(new SharedArrayBuffer(9));
  shared.set(Buffer.from('02f800050000000007', 'hex'));
  const copy = new Context(shared);
  shared.fill(0xff);
  assert.strictEqual(hex(copy), '02f800050000000007');
  const imposter = Object.create(Context.prototype);
  for (const wrong of [undefined, null, 7, 'x', {}, imposter, new Uint8Array(9), structuredClone({ ...copy })]) {
    for (const call of [() => Context.join([wrong]), () => bag.update([wrong]), () => bag.keep([wrong]), () => bag.read(wrong, 'id'), () => toHeader(wrong), () => toBinary(wrong), () => inject({}, wrong), () => extract({}, wrong), () => EMPTY.equals(wrong), () => bag.report(wrong)]) assert.throws(call, TypeError);
  }
  for (const wrong of [EMPTY, undefined, null, 'ab', 7]) assert.throws(() => Context.join(wrong), TypeError);
  assert.throws(() => new Context(Uint8Array.of(2, 0xf8)), (error) => error instanceof Fault && error.code === 'CutBody' && error.input === 0 && /CutBody at byte/.test(error.message));
  for (const wrong of [undefined, null, '14', 1.5, NaN, {}]) assert.throws(() => EMPTY.cut(wrong), TypeError);
  for (const wrong of [0, 3, '1', null]) assert.throws(() => EMPTY.bytes(wrong), RangeError);
  for (const budget of [-1, 0, 1, 0n, -5n]) assert.strictEqual(hex(copy.cut(budget)), '00');
  assert.strictEqual(hex(copy.cut(2, 2)), '00');
  for (const budget of [9, 2n ** 70n, Infinity, Number.MAX_SAFE_INTEGER]) assert(copy.cut(budget).equals(copy));
});

const VALUES = {
  id: [undefined, 0, 4711, 2 ** 32 - 1],
  tags: [new Set(), new Set(['a', 'b"\\\n\x7f', 'ä', '\ufeffx', '\u{1f600}'])],
  hops: [new Counts(), new Counts([['', 2n ** 64n - 1n], ['00ff', 3n], ['01', 2n ** 64n - 1n]])],
  debug: [false, true],
  load: [new Map(), new Map([['a', -(2n ** 63n)], ['b', 2n ** 63n - 1n]])],
  point: [undefined, [-1, true, '(,)"'], [0, false, '']],
  raw: [undefined, new Uint8Array(0), Uint8Array.of(0, 255)],
  big: [undefined, 0n, 2n ** 64n - 1n],
  sets: [new Set(), new Set([[1n, Uint8Array.of(1)], [2n, new Uint8Array(0)]])],
  deep: [new Map(), new Map([['', { seen: true, by: new Counts([['aa', 1n]]), names: new Map([[-2, new Set([Uint8Array.of(1)])], [7, new Set([Uint8Array.of(2)])]]) }], ['ff', { seen: false, by: new Counts([['00', 0n]]), names: new Map() }]])],
  'outer.flag': [undefined, true, false],
  'outer.least': [undefined, -(2 ** 31), 2 ** 31 - 1],
};

test('values are written, read, and written again, each as its type has it', () => {
  assert.deepStrictEqual(bag.slots, Object.keys(VALUES));
  for (const [path, values] of Object.entries(VALUES)) {
    for (const value of values) {
      const context = bag.update([], [[path, value]]);
      assert.deepStrictEqual(bag.read(context, path), { value, exact: true }, path);
      assert.deepStrictEqual(bag.readAll(context).get(path), { value, exact: true });
      assert.deepStrictEqual(bag.parse(path, bag.format(path, value)), value);
      assert.strictEqual(bag.format(path, value), bag.text(context, path).text);
      assert(bag.update([], bag.writesOf(path, value).map((text) => `${path} ${text}\n`).join('')).equals(context));
      assert.deepStrictEqual(bag.read(context.cut(1), path), { value: VALUES[path][0], exact: context.length === 0 });
    }
  }
  assert.strictEqual(bag.read(bag.update([], { hops: VALUES.hops[1] }), 'hops').value.total, 2n ** 65n + 1n);
  const all = Object.fromEntries(Object.entries(VALUES).map(([path, values]) => [path, values.at(-1)]));
  const context = bag.update([], all);
  assert.deepStrictEqual(Object.fromEntries([...bag.readAll(context)].map(([path, { value }]) => [path, value])), all);
  assert(bag.update([], new Map(Object.entries(all))).equals(context) && bag.update([], Object.entries(all).reduce((writes, [path, value]) => writes.set(path, value), new Writes())).equals(context));
});

test('integers of either type are written where they are exact, and others are refused', () => {
  assert(bag.update([], { id: 7n, big: 7, tags: ['x'], load: [['a', 1]], hops: [[Uint8Array.of(1), 3]], sets: [[1, Uint8Array.of(2)]] })
    .equals(bag.update([], { id: 7, big: 7n, tags: new Set(['x']), load: new Map([['a', 1n]]), hops: new Map([['01', 3n]]), sets: [[1n, Uint8Array.of(2)]] })));
  const wrongs = {
    id: [-1, 2 ** 32, 1.5, NaN, '7', true, null, 2n ** 32n, [7]],
    big: [2 ** 53, 2n ** 64n, -1n],
    tags: ['x', [7], [undefined], {}, null, ['\ud800']],
    hops: [3, { a: 3 }, [['zz', 3]], [['AA', 3]], [['aa', -1]], [['aa', 2n ** 64n]], [['aa']]],
    debug: ['on', 1, undefined, null],
    load: [[['a', 'x']], [[7, 1]], {}],
    point: [[1, true], [1, true, 'x', 2], [1, 1, 'x'], 'x'],
    raw: ['ff', [1], null],
    deep: [[['aa', {}]], [['aa', { other: 1 }]], [['aa', []]], [['aa', { names: [[1, []]] }]]],
    'outer.flag': ['true', 0],
  };
  for (const [path, values] of Object.entries(wrongs)) {
    for (const value of values) assert.throws(() => bag.update([], [['debug', true], [path, value]]), (error) => error instanceof BadWrite && error.line === 2 && error.path === path, `${path} ${inspect(value)}`);
  }
  for (const [path, value] of [['outer', 1], ['nope', 1], ['', 1], ['tags ', 1], ['deep.seen', true]]) assert.throws(() => bag.update([], [[path, value]]), (error) => error instanceof NoField && error.line === 1);
  for (const wrong of [7, null, [['id']], ['id'], new Set(), EMPTY]) assert.throws(() => bag.update([], wrong), TypeError);
});

test('a string is one value, whatever is in it', () => {
  for (const text of ['', '"', '\\', '"\\x', 'a\nid 7', '\0\x1f\x7f', 'x"\nid 9\ntags "y', '\u2028']) {
    assert.deepStrictEqual(bag.read(tagged(text), 'tags').value, new Set([text]));
    assert(bag.update([], new Writes().text('tags', quote(text))).equals(tagged(text)));
  }
  assert.throws(() => bag.update([], new Writes().text('id', '7\nid 8')), (error) => error instanceof BadWrite && error.line === 1);
  assert.throws(() => bag.update([], new Writes().text('id 7\nid', '8')), (error) => error instanceof NoField && error.line === 1);
  assert.throws(() => bag.update([], new Writes().text('tags', '"\ud800"')), BadWrite);
  assert.throws(() => bag.update([], 'id 7\ntags "\ud800"\n'), (error) => error instanceof BadWrite && error.line === 2);
  assert.throws(() => quote('\udc00'), BadWrite);
  assert.throws(() => quote(7), TypeError);
  assert.strictEqual(visible('a\x1b[1m\x7f\x9b\u2028\u202e\u2066ä\n\ud800\u{1f600}'), 'a\\x1b[1m\\x7f\\u009b\\u2028\\u202e\\u2066ä\\x0a\\ud800\u{1f600}');
});

test('refusals say where and what', () => {
  const refuses = (call, type, fields) => assert.throws(call, (error) => { assert(error instanceof type && error instanceof terncommode.TerncommodeError, error); assert.deepStrictEqual(Object.fromEntries(Object.keys(fields).map((name) => [name, error[name]])), fields); return true; });
  refuses(() => new Bag('baggage table 1\n0 1 a taint\n0 1 b taint\n'), BadTable, { line: 3, code: 'Order', message: 'table line 3: Order', name: 'BadTable' });
  refuses(() => new Bag('baggage table 1\n0 1 ä taint\n'), BadTable, { line: 2, code: 'Form' });
  assert.throws(() => new Bag(undefined), TypeError);
  refuses(() => bag.only('id', 'nope'), NoField, { line: 0, path: 'nope', message: "no field 'nope'" });
  refuses(() => bag.read(EMPTY, 'outer'), NoField, { path: 'outer' });
  refuses(() => bag.update([], 'debug on\nid x\n'), BadWrite, { line: 2, path: 'id', message: "write 2: id: no write to scalar fixed32: 'x'" });
  refuses(() => bag.update([], 'debug on\nnope x\n'), NoField, { line: 2, path: 'nope', message: "write 2: no field 'nope'" });
  refuses(() => bag.update([], { tags: ['a', 'x'.repeat(70_000)], debug: true }), BadWrite, { line: 1, path: 'tags' });
  refuses(() => bag.update([EMPTY, of('02f80003007878')]), IllTyped, { input: 1, offset: 3 });
  refuses(() => bag.receive(Uint8Array.of(2)), Fault, { input: 0 });
  refuses(() => bag.text(tagged('x'.repeat(100)), 'tags', { limit: 50 }), TooLong, { limit: 50, length: 104 });
  refuses(() => bag.report(EMPTY, { limit: 1 }), TooLong, { limit: 1 });
  for (const wrong of [undefined, '7', 1.5, null]) assert.throws(() => bag.text(EMPTY, 'id', { limit: wrong === undefined ? NaN : wrong }), TypeError);
  assert.throws(() => bag.keep([EMPTY], { others: 'x' }), RangeError);
  assert.throws(() => bag.parse('id', 'x'), SyntaxError);
  assert.throws(() => bag.parse('tags', '{"a",}'), SyntaxError);
  assert.throws(() => bag.parse('point', '(1,true,"x",2)'), SyntaxError);
});

test('headers and carriers of bytes: whatever was damaged is lost', () => {
  const one = tagged('one');
  const value = toHeader(one);
  assert(fromBinary(toBinary(one)).equals(one) && fromBinary(new Uint8Array(0)).equals(LOST));
  for (let end = 0; end < toBinary(one).length; end += 1) assert(fromBinary(toBinary(one).subarray(0, end)).equals(LOST));
  for (let end = 0; end < value.length; end += 1) assert(fromHeader(value.slice(0, end)).equals(LOST));
  for (const wrong of [`${value}=`, `${value}\n`, value.replace('.', '='), `${value.slice(0, -1)}ä`, 'AvgABQAAAAAI.Ktg3xw', 'AvgABQAAAAAH.Ktg3xx']) assert(fromHeader(wrong).equals(LOST), wrong);
  const named = [{ Terncommode: value }, { terncommode: [value, `${value} ,\t${value}`] }, new Headers({ terncommode: value }), new Map([['TERNCOMMODE', value]]), [['x', 'y'], ['Terncommode', Buffer.from(value)]], new http.IncomingMessage(null).headers];
  for (const headers of named.slice(0, -1)) assert(extract(headers, EMPTY).equals(one));
  for (const headers of [named.at(-1), {}, new Headers(), [], { terncommode: undefined }]) assert(extract(headers, LOST).equals(LOST) && extract(headers, EMPTY).equals(EMPTY));
  for (const wrong of [undefined, null, 'x', 7]) assert.throws(() => extract(wrong, EMPTY), TypeError);
  assert(extract({ rawHeaders: ['Terncommode', value, 'terncommode', value], headers: {} }, EMPTY).equals(one) && extract(new Request('http://a/', { headers: { terncommode: value } }), EMPTY).equals(one));
  assert.throws(() => extract({ terncommode: 7 }, EMPTY), TypeError);
  for (const headers of [{ terncommode: 'x' }, { TernCommode: 'x' }, new Headers({ terncommode: 'x' }), new Map([['Terncommode', 'x']])]) {
    inject(headers, one);
    assert(extract(headers, EMPTY).equals(one));
  }
  assert.deepStrictEqual([checkOf('x'), checkOf(` ${value} , y`), checkOf('')], [undefined, value.slice(-6), undefined]);
  const sent = toHeader(EMPTY);
  const reply = { 'cache-control': 'max-age=60' };
  injectReply(reply, one, { terncommode: sent });
  assert.deepStrictEqual(reply, { terncommode: value, 'terncommode-for': 'AAAAAA', 'cache-control': 'max-age=60, no-cache="terncommode"' });
  assert(extractReply(reply, sent).equals(one) && extractReply(new Headers(reply), sent).equals(one));
  for (const [headers, asked] of [[{}, sent], [reply, undefined], [reply, value], [{ ...reply, 'terncommode-for': undefined }, sent], [{ ...reply, 'terncommode-for': ['AAAAAA', 'AAAAAA'] }, sent], [{ 'terncommode-for': 'AAAAAA' }, sent]]) assert(extractReply(headers, asked).equals(LOST));
  assert.deepStrictEqual(['', 'private', 'x, no-cache="terncommode"', 'no-cache="a, Terncommode"', 'no-cache="terncommode-x"'].map(noCache),
    ['no-cache="terncommode"', 'private, no-cache="terncommode"', 'x, no-cache="terncommode"', 'no-cache="a, Terncommode"', 'no-cache="terncommode-x", no-cache="terncommode"']);
});

test('members of baggage', () => {
  const one = tagged('one');
  const own = `terncommode=${one}`;
  assert.strictEqual(withMember('', one), own);
  assert.strictEqual(withMember('k=1;p , terncommode=AA.0gLvjQ,l=2', one), `${own},k=1;p,l=2`);
  assert.deepStrictEqual([withoutOwn('k=1, l=2'), withoutOwn(`k=1, ${own}`), withoutOwn('%74erncommode=x;p'), withoutOwn('terncommode-x=1,+terncommode=1'), withoutOwn('terncommodes=1,%')], ['k=1, l=2', 'k=1', '', '', 'terncommodes=1,%']);
  for (const value of [own, `k=1,${own};p=1`, `\t${own} , ${own}`]) assert(extractMember({ baggage: value }, LOST).equals(one), value);
  assert(extractMember({ baggage: ['k=1', own] }, LOST).equals(one) && extractMember({ baggage: 'k=1' }, LOST).equals(LOST) && extractMember({}, EMPTY).equals(EMPTY));
  for (const value of ['terncommode', 'terncommode=', `${own.slice(0, -1)}`, 'terncommode=x']) assert(extractMember({ baggage: value }, EMPTY).equals(LOST), value);
  const many = Array.from({ length: 64 }, (_, at) => `k${at}=1`).join(',');
  assert.strictEqual(withMember(many, one), many);
  const long = tagged(...Array.from({ length: 500 }, (_, at) => `tag ${at}`));
  assert(withMember('', long).length <= 4096 && extractMember({ baggage: withMember('', long) }, EMPTY).length > 2900);
  const crowded = withMember(`k=${'x'.repeat(6000)}`, long);
  assert(crowded.length <= 8192 && !bag.read(extractMember({ baggage: crowded }, EMPTY), 'tags').exact && crowded.endsWith('xxx'));
  assert.strictEqual(withMember(`k=${'x'.repeat(8180)}`, one), `k=${'x'.repeat(8180)}`);
});

test('what strangers say comes in field by field, within limits', () => {
  const alone = bag.only('tags');
  assert(ingress([toHeader(tagged('a'))], alone).equals(tagged('a')));
  const long = toHeader(bag.update([], { id: 7, tags: ['mine', 'x'.repeat(2000)] }));
  assert.deepStrictEqual(bag.read(ingress([long], alone), 'tags'), { value: new Set(['mine']), exact: false });
  assert(ingress([long], alone, { dropsPartial: true }).equals(EMPTY));
  for (const wrong of [{ parts: -1 }, { parts: 1.5 }, { letters: '8' }, { dropsPartial: 1 }, { other: 1 }, { toString: 1 }]) assert.throws(() => ingress([], alone, wrong), TypeError);
});

// ---- memory

test('the memory of a call is given back', () => {
  const before = process.memoryUsage().rss;
  for (let turn = 0; turn < 3; turn += 1) {
    const wide = bag.update([], { tags: Array.from({ length: 400 }, (_, at) => `${at}${'x'.repeat(20_000)}`) });
    assert(wide.length > 400 * 20_000);
    assert(held() <= 16 * 2 ** 20, `${held()} bytes are held`);
  }
  assert(process.memoryUsage().rss - before < 2 ** 30);
});

const SHORT_OF_MEMORY = `
import { Bag, Context, OutOfMemory } from ${JSON.stringify(new URL('../src/node.mjs', import.meta.url))};
const bag = new Bag('baggage table 1\\n0 0 id scalar fixed32\\n0 1 tags set string\\n');
const short = Buffer.from(bag.update([], { id: 7, tags: ['a'] }).bytes()).toString('hex');
const counts = [0, 0];
for (let turn = 0; turn < 20; turn += 1) {
  const tags = Array.from({ length: 200 + 400 * turn }, (_, at) => at + 'x'.repeat(150));
  try {
    const made = bag.update([], { tags });
    if (bag.only('tags').read(made, 'tags', { limit: Infinity }).value.size !== tags.length) throw new Error('wrong');
    counts[0] += 1;
  } catch (error) {
    if (!(error instanceof OutOfMemory) || error.message !== 'out of memory') throw error;
    counts[1] += 1;
  }
  if (Buffer.from(bag.update([], { id: 7, tags: ['a'] }).bytes()).toString('hex') !== short) throw new Error('the short call differs');
}
console.log(counts.join(' '));
`;

test('where memory is out a call is an error, and the next one is right', () => {
  let wanting = 0;
  for (const pages of [40, 60, 100, 200]) {
    const ran = spawnSync(process.execPath, [`--wasm-max-mem-pages=${pages}`, '--input-type=module', '--eval', SHORT_OF_MEMORY], { encoding: 'utf8' });
    assert.strictEqual(ran.status, 0, ran.stderr);
    const [right, out] = ran.stdout.split(' ').map(Number);
    assert(right > 0 && right + out === 20, ran.stdout);
    wanting += out;
  }
  assert(wanting > 10);
  const none = spawnSync(process.execPath, ['--wasm-max-mem-pages=1', '--input-type=module', '--eval', SHORT_OF_MEMORY], { encoding: 'utf8' });
  assert(none.status !== 0 && /OutOfMemory: out of memory/.test(none.stderr), none.stderr);
});

/** A module whose join stops, and whose version is the one that is wanted or another. */
function stopping(version) {
  const text = (name) => [name.length, ...Buffer.from(name)];
  const section = (id, ...bytes) => [id, bytes.flat().length, ...bytes.flat()];
  const leb = (number) => [(number & 0x7f) | 0x80, ((number >> 7) & 0x7f) | 0x80, number >> 14];
  const functions = ['baggage_version', 'baggage_frame', 'baggage_join'];
  return new WebAssembly.Module(Uint8Array.from([
    0, 0x61, 0x73, 0x6d, 1, 0, 0, 0,
    ...section(1, 3, [0x60, 0, 1, 0x7f], [0x60, 1, 0x7e, 1, 0x7e], [0x60, 7, 0x7e, 0x7f, 0x7e, 0x7e, 0x7e, 0x7e, 0x7e, 0]),
    ...section(3, 3, 0, 1, 2),
    ...section(5, 1, 0, 1),
    ...section(7, 4, [...text('memory'), 2, 0], functions.flatMap((name, at) => [...text(name), 0, at])),
    ...section(10, 3, [6, 0, 0x41, ...leb(version), 0x0b], [4, 0, 0x42, 16, 0x0b], [3, 0, 0x00, 0x0b]),
  ]));
}

test('where the module stops a call is an error, and another module is refused', async () => {
  const { readFileSync } = await import('node:fs');
  const mine = new WebAssembly.Module(readFileSync(process.env.TERNCOMMODE_MODULE || new URL('../../../dist/baggage.wasm', import.meta.url)));
  const value = tagged('x').bytes();
  for (const wrong of [stopping(10_000), new WebAssembly.Module(Uint8Array.of(0, 0x61, 0x73, 0x6d, 1, 0, 0, 0)), 7]) assert.throws(() => use(wrong), TypeError);
  assert(new Context(value).equals(tagged('x')));
  use(stopping(20_000));
  for (let turn = 0; turn < 2; turn += 1) assert.throws(() => new Context(value), (error) => error instanceof Stopped && error.cause instanceof WebAssembly.RuntimeError);
  use(mine);
  assert(new Context(value).equals(tagged('x')));
});

test('counts are drawn where node:crypto alone has random bytes, as in Node 18', () => {
  const source = `Object.defineProperty(globalThis, 'crypto', { value: undefined });
    const { Bag } = await import(${JSON.stringify(new URL('../src/node.mjs', import.meta.url))});
    const { Visit } = await import(${JSON.stringify(new URL('../src/visit.mjs', import.meta.url))});
    const bag = new Bag('baggage table 1\\n0 2 hops counter\\n');
    const visit = new Visit();
    visit.count(bag, 'hops', 3);
    console.log(typeof globalThis.crypto, String(bag.read(visit.end(), 'hops').value.total));`;
  const ran = spawnSync(process.execPath, ['--input-type=module', '--eval', source], { encoding: 'utf8' });
  assert.strictEqual(ran.stdout, 'undefined 3\n', ran.stderr);
});

test('what is no bag and no counter is refused, and counts nothing', () => {
  const visit = new Visit();
  for (const wrong of [undefined, null, {}, TABLE, Object.create(Bag.prototype)]) assert.throws(() => visit.count(wrong, 'hops'), TypeError);
  assert.throws(() => visit.count(bag, 'tags'), BadWrite);
  assert.throws(() => visit.count(bag, 'nope'), NoField);
  assert(visit.end().equals(EMPTY));
});

// ---- servers and threads

const after = (call) => new Promise((done) => { call(done); });
const listening = async (server) => { await after((done) => server.listen(0, '127.0.0.1', done)); return server; };

/** What a request to a server reads of its reply. */
const asked = (server, visit, options = {}) => run(visit, () => after((done) => {
  const call = carry(http.request({ host: '127.0.0.1', port: server.address().port, agent: false, ...options }), { hosts: ['127.0.0.1'], ...options });
  call.on('response', (response) => { response.resume(); response.on('close', () => done(response)); });
  call.end();
}));

test('requests beside one another keep each its own context', async () => {
  const server = await listening(http.createServer(serve(async (message, response) => {
    await after((done) => setTimeout(done, Math.random() * 5));
    count(bag, 'hops');
    add(bag.write(EMPTY, 'tags', [...bag.read(current(), 'tags').value].map((tag) => `${tag}!`)));
    response.end();
  }, { trusted: true })));
  await Promise.all(Array.from({ length: 50 }, async (_, at) => {
    const visit = new Visit(tagged(`${at}`));
    await asked(server, visit);
    assert.deepStrictEqual(bag.read(visit.end(), 'tags'), { value: new Set([`${at}`, `${at}!`]), exact: true });
    assert.strictEqual(bag.read(visit.end(), 'hops').value.total, 1n);
  }));
  server.close();
});

test('a member of baggage is read and sent where it is said', async () => {
  const seen = [];
  const server = await listening(http.createServer(serve((message, response) => { seen.push([message.headers.baggage, String(current())]); response.end(); }, { trusted: true, member: true })));
  const one = tagged('one');
  await asked(server, new Visit(one), { member: true, headers: { baggage: 'k=1' } });
  await after((done) => http.get({ host: '127.0.0.1', port: server.address().port, headers: { baggage: `terncommode=${one}` } }, (response) => { response.resume(); response.on('end', done); }));
  await after((done) => http.get({ host: '127.0.0.1', port: server.address().port, headers: { baggage: 'k=1' } }, (response) => { response.resume(); response.on('end', done); }));
  assert.deepStrictEqual(seen, [[`terncommode=${one},k=1`, String(one)], [`terncommode=${one}`, String(one)], ['k=1', String(LOST)]]);
  server.close();
});

test('the examples of the page run', async () => {
  const { readFileSync } = await import('node:fs');
  const blocks = [...readFileSync(new URL('../README.md', import.meta.url), 'utf8').matchAll(/```js\n(.*?)```/gs)].map(([, code]) => code);
  const source = blocks.join('').replace(/^import (.*) from '(.*)';$/gm, (_, names, place) => `const ${names} = await imported('${place}');`).replace('listen(8080)', "listen(0, '127.0.0.1')");
  const stock = await listening(http.createServer(serve((_, response) => { add(tagged('stock')); response.end('in stock'); }, { trusted: true })));
  const port = stock.address().port;
  const server = http.createServer();
  const createServer = (listener) => server.on('request', listener);
  const asks = (place, options) => http.request({ ...options, host: 'stock', port, agent: false, lookup: (name, how, done) => (how.all ? done(null, [{ address: '127.0.0.1', family: 4 }]) : done(null, '127.0.0.1', 4)) });
  const imported = async (place) => (place === 'node:http' ? { createServer, request: asks } : import(place));
  const AsyncFunction = (async () => {}).constructor;
  const said = await new AsyncFunction('imported', 'table', 'request', `${source}; return { here, sent, value, exact, handle };`)(imported, TABLE, { headers: { terncommode: toHeader(tagged('before')) } });
  assert.deepStrictEqual([said.value, said.exact, bag.read(fromHeader(said.sent), 'tags').value], [4711, true, new Set(['before', 'spring'])]);
  await after((done) => (server.listening ? done() : server.once('listening', done)));
  const visit = new Visit();
  await asked(server, visit);
  assert.deepStrictEqual([bag.read(visit.end(), 'tags'), bag.read(visit.end(), 'hops').value.total], [{ value: new Set(['cart', 'stock']), exact: true }, 2n]);
  server.close();
  stock.close();
});

test('an edge that is told wrongly says so', () => {
  for (const wrong of [{ trusted: 'yes' }, { absent: 7 }, { bag, limits: { parts: -1 } }]) for (const make of [middleware, (options) => serve(() => {}, options)]) assert.throws(() => make(wrong), TypeError);
});

const MIDDLEWARES = {
  'a chain of functions': () => (...layers) => (message, response) => { const next = (at) => layers[at](message, response, () => next(at + 1)); next(0); },
  Express: () => {
    const express = createRequire(import.meta.url)('express');
    return (...layers) => { const app = express(); for (const layer of layers) app.use(layer); return app; };
  },
};

for (const [name, make] of Object.entries(MIDDLEWARES)) {
  test(`a middleware in ${name}`, async (context) => {
    let chain;
    try {
      chain = make();
    } catch (error) {
      context.skip(`no ${name}: ${error.code}`);
      return;
    }
    const handler = async (message, response) => { await null; count(bag, 'hops', 2); response.setHeader('x-mine', '1'); response.end(String(current())); };
    const inside = await listening(http.createServer(chain(middleware({ trusted: true }), (message, response, next) => { add(tagged('layer')); setTimeout(next, 1); }, handler)));
    const visit = new Visit(tagged('mine'));
    const response = await asked(inside, visit);
    assert.deepStrictEqual([bag.read(visit.end(), 'tags'), bag.read(visit.end(), 'hops').value.total, response.headers['x-mine']], [{ value: new Set(['layer', 'mine']), exact: true }, 2n, '1']);
    const edge = await listening(http.createServer(chain(middleware({ bag: bag.only('id') }), (message, outgoing) => outgoing.end(`${message.headers.terncommode} ${bag.read(current(), 'id').value} ${bag.read(current(), 'tags').exact}`))));
    const stranger = await fetch(`http://127.0.0.1:${edge.address().port}/`, { headers: { terncommode: toHeader(bag.update([], { id: 7, tags: ['x'] })) } });
    assert.deepStrictEqual([await stranger.text(), stranger.headers.get('terncommode')], ['undefined 7 false', null]);
    inside.close();
    edge.close();
  });
}

test('each worker thread has a module of its own', async () => {
  const source = `
    import { parentPort, workerData } from 'node:worker_threads';
    import { Bag, Context } from ${JSON.stringify(new URL('../src/node.mjs', import.meta.url))};
    const bag = new Bag(workerData.table);
    let context = Context.from(workerData.context);
    for (let turn = 0; turn < 300; turn += 1) context = bag.update([context], { tags: [workerData.at + ' ' + (turn % 7)] });
    parentPort.postMessage(String(context));`;
  const said = await Promise.all(Array.from({ length: 8 }, (_, at) => after((done) => {
    new Worker(new URL(`data:text/javascript,${encodeURIComponent(source)}`), { workerData: { table: TABLE, context: String(tagged('main')), at } }).once('message', done);
  })));
  const both = Context.join(said.map((text) => Context.from(text)));
  assert.deepStrictEqual([bag.read(both, 'tags').value.size, bag.read(both, 'tags').exact], [57, true]);
});
