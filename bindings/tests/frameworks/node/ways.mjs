// The ways in which Node runs what belongs to a request: whatever reads exact at the end is the join of all that was said in time, or it is partial.
// `ways.mjs` runs them all; `ways.mjs ingress` reads lines of what strangers send, and writes what comes in.
import assert from 'node:assert';
import { EventEmitter, once } from 'node:events';
import fs from 'node:fs';
import http from 'node:http';
import net from 'node:net';
import { createInterface } from 'node:readline';
import { Readable, Transform, Writable } from 'node:stream';
import { pipeline } from 'node:stream/promises';
import timers from 'node:timers/promises';
import { promisify } from 'node:util';
import { isMainThread, parentPort, Worker, workerData } from 'node:worker_threads';
import * as carriers from '../../../node/carriers.mjs';
import { carry, serve } from '../../../node/http.mjs';
import * as requests from '../../../node/request.mjs';

const { Bag, EMPTY, checkOf, cut, extract, extractReply, fromBinary, fromHeader, join, lost, noCache, quote, toBinary, toHeader, visible } = carriers;
const { add, bound, change, count, current, expect, here, NoRequest, Request, run } = requests;

const known = new Bag('baggage table 1\n0 0 id scalar fixed32\n0 1 tags set string\n0 2 hops counter\n0 3 debug taint\n');
const tagged = (name) => known.update([], [['tags', quote(name)]]);
const totalOf = (context) => Number(known.field(context, 'hops').text.split('{')[0]);
const isLost = (context) => context.equals(join([context, lost()]));

/** What was told to be in time, by all that works on a visit. */
class Notes {
  tags = new Set();
  hops = 0;

  tag(name, isInTime) {
    if (isInTime) this.tags.add(name);
  }

  check(context) {
    const tags = known.field(context, 'tags');
    const sorted = [...this.tags].sort((a, b) => Buffer.compare(Buffer.from(a), Buffer.from(b)));
    assert.deepStrictEqual(tags, { text: `{${sorted.map(quote).join(',')}}`, exact: true });
    assert(known.field(context, 'hops').exact);
    assert.strictEqual(totalOf(context), this.hops);
  }
}

/** The work of one task: it adds a tag, changes the context, and counts. */
function work(notes, name) {
  notes.tag(name, add(tagged(name)));
  notes.tag(`${name}!`, change((before) => known.update([before], [['tags', quote(`${name}!`)]])));
  if (count(known, 'hops', 2)) notes.hops += 2;
}

const after = (run) => new Promise((done) => { run(done); });

// ---- ways to run things

const emitter = new EventEmitter(); // made before any request, as a pool's
const queue = [];
let wakeConsumer = () => {};
(async () => {
  for (;;) {
    while (queue.length > 0) queue.shift()();
    await after((done) => { wakeConsumer = done; });
  }
})();

const ways = {
  sequence: (notes) => { for (let turn = 0; turn < 5; turn += 1) work(notes, `${turn}`); },
  await: async (notes) => { for (let turn = 0; turn < 5; turn += 1) { await null; work(notes, `${turn}`); } },
  all: (notes) => Promise.all([...Array(20).keys()].map(async (task) => { await timers.setTimeout(task % 3); work(notes, `${task}`); })),
  race: (notes) => Promise.all([Promise.race([timers.setTimeout(1).then(() => work(notes, 'slow')), Promise.resolve().then(() => work(notes, 'fast'))]), timers.setTimeout(5)]),
  timeout: (notes) => after((done) => setTimeout(() => { work(notes, 'timer'); done(); }, 1)),
  interval: (notes) => after((done) => { let turn = 0; const it = setInterval(() => { work(notes, `${turn}`); turn += 1; if (turn === 3) { clearInterval(it); done(); } }, 1); }),
  immediate: (notes) => after((done) => setImmediate(() => { work(notes, 'immediate'); done(); })),
  tick: (notes) => after((done) => process.nextTick(() => { work(notes, 'tick'); done(); })),
  microtask: (notes) => after((done) => queueMicrotask(() => { work(notes, 'microtask'); done(); })),
  callbacks: (notes) => after((done) => fs.stat('/', () => { work(notes, 'stat'); fs.readdir('/', () => { work(notes, 'readdir'); done(); }); })),
  promisified: async (notes) => { await promisify(fs.stat)('/'); work(notes, 'stat'); },
  streams: (notes) => pipeline(Readable.from(['a', 'b']), new Transform({ objectMode: true, transform(it, _, next) { work(notes, `t${it}`); next(null, it); } }),
    new Writable({ objectMode: true, write(it, _, next) { setTimeout(() => { work(notes, `w${it}`); next(); }, 1); } })),
  generator: async (notes) => { async function* gives() { for (let turn = 0; turn < 3; turn += 1) { await null; work(notes, `g${turn}`); yield turn; } } for await (const turn of gives()) work(notes, `${turn}`); },
  'emitter from outside': (notes) => after((done) => {
    emitter.once('told', () => assert.throws(() => work(notes, 'unbound'), NoRequest));
    emitter.once('told', bound(() => { work(notes, 'bound'); done(); }));
    queueMicrotask(() => run(undefined, () => emitter.emit('told')));
  }),
  'a queue whose consumer began before': (notes) => after((done) => {
    queue.push(() => assert.throws(() => work(notes, 'unbound'), NoRequest), bound(() => { work(notes, 'bound'); done(); }));
    wakeConsumer();
  }),
  'a thenable': async (notes) => { await { then: (done) => { work(notes, 'then'); done(); } }; work(notes, 'after'); },
  'steps that come back': (notes) => { notes.tag('outer', change((before) => { work(notes, 'inner'); return known.update([before], [['tags', quote('outer')]]); })); },
  'steps that wait': async (notes) => {
    const told = change(async (before) => { await timers.setTimeout(2); return known.update([before], [['tags', quote('slow')]]); });
    work(notes, 'meanwhile');
    notes.tag('slow', await told);
  },
  'steps that throw': async (notes) => {
    assert.throws(() => change(() => { throw new Error('no'); }), { message: 'no' });
    await assert.rejects(change(async () => { throw new Error('no'); }), { message: 'no' });
    assert.throws(() => change((before) => known.update([before], [['id', 'x']])), { code: '8' });
    assert.throws(() => count(known, 'nope'), { code: '7' });
    assert.throws(() => count(known, 'tags'), { code: '8' });
    for (const wrong of [-1, 2n ** 64n]) assert.throws(() => count(known, 'hops', wrong), RangeError);
    assert.throws(() => add('x'), TypeError);
    work(notes, 'after');
  },
  'a branch that comes back': (notes) => {
    const branch = requests.branch();
    run(branch, work, notes, 'branch');
    work(notes, 'trunk');
    notes.tag('branch', add(branch.context));
  },
  'a branch that stays': (notes) => {
    const others = new Notes();
    const branch = requests.branch();
    run(branch, work, others, 'branch');
    others.check(branch.end());
    work(notes, 'trunk');
  },
  'a worker thread': async (notes) => {
    const worker = new Worker(new URL(import.meta.url), { workerData: toHeader(current()) });
    const [value] = await once(worker, 'message');
    assert(here());
    notes.tag('worker', add(fromHeader(value)));
    notes.hops += 2;
    notes.tags.add('worker!');
    await worker.terminate();
  },
  'what is handed out is a copy': (notes) => { current().fill(0xff); change((before) => { before.fill(0xff); return tagged('x'); }); notes.tag('x', true); },
};

async function theWays() {
  for (const [name, way] of Object.entries(ways)) {
    const notes = new Notes();
    const request = new Request(EMPTY);
    await run(request, way, notes);
    assert.strictEqual(here(), undefined);
    try {
      notes.check(request.end());
    } catch (error) {
      error.message = `${name}: ${error.message}`;
      throw error;
    }
  }
  assert(isLost(current()));
  for (const call of [() => add(EMPTY), () => change((it) => it), () => count(known, 'hops'), expect, requests.branch, requests.end, () => bound(() => {})]) assert.throws(call, NoRequest);
  const notes = new Notes();
  const request = new Request(EMPTY);
  run(request, work, notes, 'in time');
  const back = request.end();
  run(request, work, notes, 'late');
  notes.check(back);
  assert.deepStrictEqual([request.late, totalOf(request.context)], [3, 4]);
  // Where somebody wrote what the table doesn't allow, counts aren't lost.
  const ill = new Request(Buffer.from('02f80003007878', 'hex'));
  assert.throws(() => known.field(ill.context, 'hops'), { code: '9' });
  assert(ill.count(known, 'hops') && ill.count(known, 'hops'));
  const hops = new Bag('baggage table 1\n0 2 hops counter\n').field(ill.end(), 'hops');
  assert(hops.exact && hops.text.startsWith('2{'), hops.text);
}

// ---- over http

const MESH = { hosts: ['127.0.0.1'] };

const listening = async (listener, options) => {
  const server = options === 'raw' ? net.createServer(listener) : http.createServer(serve(listener, options));
  await after((done) => server.listen(0, '127.0.0.1', done));
  return server;
};

/** Asks a server within the request that runs here; the status, or the error's code. */
const asks = (server, { path = '/', method = 'GET', headers = {}, ...options } = {}) =>
  after((done) => {
    const asked = carry(http.request({ host: '127.0.0.1', port: server.address().port, path, method, headers, agent: false }), { ...MESH, ...options });
    asked.on('response', (response) => { response.resume(); response.on('close', () => done(response)); });
    asked.on('error', (error) => asked.once('close', () => done(error.code)));
    asked.end();
  });

const counting = (_, response) => { count(known, 'hops'); add(tagged('served')); response.end('ok'); };

async function counters() {
  const server = await listening(counting, { trusted: true });
  const front = await listening(async (message, response) => {
    await Promise.all([...Array(10)].map(() => asks(server))); // to one instance, by ten calls beside one another
    for (let turn = 0; turn < 3; turn += 1) await asks(server); // retries
    count(known, 'hops', 5);
    response.writeHead(200, { 'cache-control': 'max-age=60', 'x-other': 'y' });
    add(tagged('late'));
    response.end();
  }, { trusted: true });
  const request = new Request(EMPTY);
  const response = await run(request, asks, front);
  assert.strictEqual(response.headers['cache-control'], 'max-age=60, no-cache="terncommode"');
  assert.deepStrictEqual([response.headers.terncommode, response.headers['terncommode-for'], response.rawHeaders.filter((word) => /^terncommode/.test(word))], [undefined, undefined, []]);
  const plain = await fetch(`http://127.0.0.1:${server.address().port}/`, { headers: { terncommode: toHeader(EMPTY) } });
  assert.strictEqual(plain.headers.get('terncommode-for'), checkOf(toHeader(EMPTY)));
  assert.deepStrictEqual([totalOf(request.end()), known.field(request.end(), 'hops').exact, known.field(request.end(), 'tags').text], [18, true, '{"served"}']);
  const many = new Request(EMPTY);
  await run(many, async () => { for (let turn = 0; turn < 200; turn += 1) await asks(server); });
  assert(!known.field(many.end(), 'hops').exact); // of more visits than a budget has place for, the rest is cut, and that is told
  server.close();
  front.close();
}

/** What is counted belongs to a slot, which two tables may name in two ways; one name may be that of two slots. What is refused isn't counted. */
function countsOfTwoTables() {
  const tables = ['0 2 hops counter\n0 3 sub bag\n1 2 hops counter\n0 4 load map bytes greatest uint64\n',
    '0 2 jumps counter\n0 3 below bag\n1 2 jumps counter\n0 5 hops counter\n0 6 other bag\n1 0 hop counter\n'];
  const [first, second, again] = [...tables, tables[1]].map((lines) => new Bag(`baggage table 1\n${lines}`));
  const visit = new Request(EMPTY);
  for (const [bag, path, more] of [[first, 'hops', 2], [second, 'jumps', 3], [second, 'hops', 5], [first, 'hops', 7], [first, 'sub.hops', 11], [second, 'below.jumps', 13],
    [second, 'other.hop', 17], [again, 'other.hop', 19]]) {
    visit.count(bag, path, more);
    assert.throws(() => visit.count(second, 'other'), { code: '7' });
    assert.throws(() => visit.count(first, 'load'), { code: '8' });
  }
  visit.count(second, 'other.hop', 0);
  for (const [path, total] of [['jumps', '12{'], ['hops', '5{'], ['below.jumps', '24{'], ['other.hop', '36{']]) {
    const { text, exact } = second.field(visit.context, path);
    assert(exact && text.startsWith(total), `${path} ${text}`);
  }
}

/** Two calls of which one is to answer first; and each visit has a writer of its own, also after a restart. */
function hedges() {
  const serves = (sent) => {
    const visit = new Request(fromHeader(sent));
    visit.count(known, 'hops', 2);
    return extractReply([toHeader(visit.end())], [checkOf(sent)], sent);
  };
  for (const both of [true, false]) {
    const request = new Request(EMPTY);
    const sent = toHeader(request.context);
    const [first, second] = [request.expect(), request.expect()];
    assert(first.came(serves(sent)));
    const before = both ? undefined : request.end();
    assert.strictEqual(second.came(serves(sent)), both);
    const back = before ?? request.end();
    assert.deepStrictEqual([totalOf(back), known.field(back, 'hops').exact, totalOf(request.context), request.late], [both ? 4 : 2, true, 4, both ? 0 : 1]);
  }
  const visits = [...Array(300)].map(() => { const visit = new Request(EMPTY); visit.count(known, 'hops'); return visit.end(); });
  assert.strictEqual(totalOf(join(visits)), 300);
}

async function heads() {
  const wants = (response) => [response.headers['cache-control'], response.headers['x-a']];
  const ends = {
    end: (response) => response.end('x'),
    write: (response) => { response.setHeader('x-a', '1'); response.write('x'); response.end(); },
    'flushed headers': (response) => { response.setHeader('x-a', '1'); response.flushHeaders(); response.end(); },
    object: (response) => response.writeHead(200, { 'X-A': 1, 'Cache-Control': 'no-cache="terncommode"' }).end(),
    'words and a list': (response) => response.writeHead(200, 'Fine', ['x-a', '1', 'cache-control', 'private', 'terncommode', '.AAAAAA']).end(),
  };
  for (const [name, end] of Object.entries(ends)) {
    const server = await listening((_, response) => { count(known, 'hops'); end(response); }, { trusted: true });
    const request = new Request(EMPTY);
    const response = await run(request, asks, server);
    assert.strictEqual(totalOf(request.end()), 1, name);
    assert.strictEqual(isLost(request.end()), name === 'words and a list', name); // what stands there already was heard by nobody
    assert(wants(response)[0].includes('no-cache="terncommode"') && (name === 'end' || wants(response)[1] === '1'), name);
    server.close();
  }
}

/** Replies that never come, begin, or come, and whether the request is lost then. */
async function replies() {
  const begins = {
    'closed before a byte': [(socket) => socket.destroy(), false],
    'closed within the head': [(socket) => socket.end('HTTP/1.1 200 OK\r\nterncommode: '), true],
    'no head': [(socket) => socket.end('nonsense\r\n\r\n'), true],
    'a hundred only': [(socket) => { socket.write('HTTP/1.1 103 Early Hints\r\n\r\n'); setTimeout(() => socket.destroy(), 5); }, true],
    'no context': [(socket) => socket.end('HTTP/1.1 200 OK\r\nContent-Length: 0\r\n\r\n'), true],
    'for another request': [(socket) => socket.end(`HTTP/1.1 200 OK\r\nterncommode: ${toHeader(tagged('x'))}\r\nterncommode-for: AAAAAB\r\n\r\n`), true],
    'for none': [(socket) => socket.end(`HTTP/1.1 200 OK\r\nterncommode: ${toHeader(tagged('x'))}\r\n\r\n`), true],
    'for two': [(socket) => socket.end(`HTTP/1.1 200 OK\r\nterncommode: ${toHeader(tagged('x'))}\r\nterncommode-for: AAAAAA\r\nterncommode-for: AAAAAA\r\n\r\n`), true],
    'a body that breaks': [(socket) => socket.end(`HTTP/1.1 200 OK\r\nterncommode: ${toHeader(tagged('x'))}\r\nterncommode-for: AAAAAA\r\nContent-Length: 9\r\n\r\nx`), false],
  };
  for (const [name, [begin, expected]] of Object.entries(begins)) {
    const server = await listening((socket) => { socket.on('error', () => {}); socket.once('data', () => begin(socket)); }, 'raw');
    const request = new Request(EMPTY);
    await run(request, asks, server);
    assert.strictEqual(isLost(request.end()), expected, name);
    if (name === 'a body that breaks') assert(request.end().equals(tagged('x')));
    const lossy = new Request(EMPTY);
    if (name === 'closed before a byte') await run(lossy, asks, server, { onFailure: 'lost' });
    else lossy.add(lost());
    assert(isLost(lossy.end()), name);
    server.close();
  }
  // Between a 103 and the reply what is held is lost, and afterwards it isn't.
  const early = await listening((socket) => socket.once('data', () => {
    socket.write('HTTP/1.1 103 Early Hints\r\n\r\n');
    setTimeout(() => socket.end('HTTP/1.1 200 OK\r\nterncommode: .AAAAAA\r\nterncommode-for: AAAAAA\r\n\r\n'), 5);
  }), 'raw');
  const hinted = new Request(EMPTY);
  const asked = run(hinted, () => carry(http.request({ host: '127.0.0.1', port: early.address().port, agent: false }), MESH));
  asked.end();
  await once(asked, 'information');
  assert(isLost(hinted.context));
  await once(asked, 'response');
  assert(hinted.context.equals(EMPTY));
  early.close();
  const refused = await listening(() => {}, 'raw');
  const address = { address: () => refused.address() };
  const port = refused.address().port;
  await after((done) => refused.close(done));
  const request = new Request(EMPTY);
  assert.strictEqual(await run(request, asks, { address: () => ({ port }) }), 'ECONNREFUSED', String(address));
  assert(request.end().equals(EMPTY));
  // A count goes on while a reply is on the way; what a step makes then is lost, and stays so.
  const meanwhile = new Request(EMPTY);
  const [waits, again] = [meanwhile.expect(), meanwhile.expect()];
  waits.began();
  meanwhile.count(known, 'hops');
  assert(waits.came(EMPTY) && known.field(meanwhile.context, 'hops').exact);
  again.began();
  meanwhile.change((before) => { assert(isLost(before)); return before; });
  assert(again.came(EMPTY) && isLost(meanwhile.end()));
  const reply = request.expect();
  reply.began();
  assert(isLost(request.context) && isLost(request.branch().context));
  assert.strictEqual(reply.came(EMPTY), false);
  assert(request.context.equals(EMPTY));
}

async function edges() {
  const seen = [];
  const inside = await listening((message, response) => { seen.push(message.headers.terncommode); add(tagged('inside')); response.end(); }, { trusted: true });
  const edge = await listening(async (message, response) => {
    seen.push([message.headers.terncommode, message.headers.baggage, message.headersDistinct.terncommode, message.rawHeaders.filter((word) => /terncommode/i.test(word)).length, current().toString('hex')]);
    await asks(inside, { hosts: [] });
    await asks(inside);
    response.end();
  }, {});
  const open = await listening((_, response) => { response.writeHead(200, { terncommode: '.AAAAAA', 'x-a': '1' }).end(); assert(!add(tagged('late'))); });
  const { headers } = await fetch(`http://127.0.0.1:${open.address().port}/`);
  assert.deepStrictEqual([headers.get('terncommode'), headers.get('x-a')], [null, '1']);
  open.close();
  const stranger = await fetch(`http://127.0.0.1:${edge.address().port}/`, { headers: { terncommode: toHeader(tagged('x')), 'terncommode-step': 'a.1', baggage: 'k=1, terncommode=AA.0gLvjQ;p=2,%74erncommode=AA.0gLvjQ,+%2574erncommode ;p=AA.0gLvjQ,Terncommode-Bin=x' } });
  assert.deepStrictEqual([...stranger.headers.keys()].filter((name) => name.startsWith('terncommode')), []);
  assert.deepStrictEqual(seen, [[undefined, 'k=1', undefined, 0, ''], undefined, toHeader(EMPTY)]);
  const known2 = await listening((_, response) => response.end(current().toString('hex')), { bag: new Bag('baggage table 1\n0 0 id scalar fixed32\n'), limits: { dropsPartial: true } });
  const came = await fetch(`http://127.0.0.1:${known2.address().port}/`, { headers: { terncommode: toHeader(known.update([], [['id', '7'], ['debug', 'on']])) } });
  assert.strictEqual(await came.text(), '02f800050000000007');
  for (const server of [inside, edge, known2]) server.close();
}

// ---- others

function texts() {
  assert.strictEqual(visible('a\x1b[1m\x7f\x9b\u2028\u202e\u2066ä\n'), 'a\\x1b[1m\\x7f\\u009b\\u2028\\u202e\\u2066ä\\x0a');
  const one = tagged('one');
  assert(fromBinary(toBinary(one)).equals(one) && isLost(fromBinary(EMPTY)));
  for (let end = 0; end < toBinary(one).length; end += 1) assert(fromBinary(toBinary(one).subarray(0, end)).equals(lost()));
  const value = toHeader(one);
  assert(fromHeader(value).equals(one) && extract([], EMPTY).equals(EMPTY) && extract([value, ` ${value},${value}\t`], lost()).equals(one));
  for (let end = 0; end < value.length; end += 1) assert(fromHeader(value.slice(0, end)).equals(lost()));
  for (const wrong of [`${value}=`, `${value}\n`, value.replace('.', '='), `${value.slice(0, -1)}ä`, 'AvgABQAAAAAI.Ktg3xw', 'AvgABQAAAAAH.Ktg3xx']) assert(fromHeader(wrong).equals(lost()), wrong);
  assert.throws(() => extract([], undefined), TypeError);
  assert.deepStrictEqual([checkOf('x'), checkOf(` ${value} , y`), checkOf('')], [undefined, value.slice(-6), undefined]);
  assert(isLost(extractReply([value], [], value)) && isLost(extractReply([value], [value.slice(-6)], undefined)) && extractReply([value], [value.slice(-6)], value).equals(one));
  assert.deepStrictEqual([noCache(), noCache('private'), noCache('x, no-cache="terncommode"')], ['no-cache="terncommode"', 'private, no-cache="terncommode"', 'x, no-cache="terncommode"']);
  assert.strictEqual(cut(one, 0).toString('hex'), '00');
  assert.throws(() => known.ingress([value], { parts: -1 }), TypeError);
  assert.throws(() => known.ingress([value], { parts: 1.5 }), TypeError);
}

const bytesOf = (digits) => (digits === '-' ? EMPTY : Buffer.from(digits, 'hex'));

async function strangers() {
  const lines = [];
  for await (const line of createInterface({ input: process.stdin })) {
    const [table, letters, parts, text, budget, drops, ...values] = line.split(' ');
    const limits = { letters: Number(letters), parts: Number(parts), text: Number(text), budget: Number(budget), dropsPartial: drops !== '0' };
    lines.push(new Bag(bytesOf(table)).ingress(values.map(bytesOf), limits).toString('hex') || '-');
  }
  process.stdout.write(lines.map((line) => `${line}\n`).join(''));
}

if (!isMainThread) {
  const request = new Request(fromHeader(workerData));
  run(request, work, new Notes(), 'worker');
  parentPort.postMessage(toHeader(request.end()));
} else if (process.argv[2] === 'ingress') {
  await strangers();
} else {
  await theWays();
  await counters();
  hedges();
  countsOfTwoTables();
  await heads();
  await replies();
  await edges();
  texts();
  console.log(`${Object.keys(ways).length} ways, http`);
  process.exit(0);
}
