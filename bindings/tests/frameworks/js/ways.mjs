// The ways in which Node runs what belongs to a request: whatever reads exact at the end is the join of all that was said in time, or it is partial.
// `ways.mjs` runs them all; `ways.mjs ingress` reads lines of what strangers send, and writes what comes in.
import assert from 'node:assert';
import { EventEmitter, once } from 'node:events';
import fs from 'node:fs';
import http from 'node:http';
import net from 'node:net';
import { createInterface } from 'node:readline';
import { Readable, Transform, Writable } from 'node:stream';
import { pipeline } from 'node:stream/promises';
import timers from 'node:timers/promises';
import { promisify } from 'node:util';
import { isMainThread, parentPort, Worker, workerData } from 'node:worker_threads';
import * as terncommode from '../../../js/src/node.mjs';
import { carryFetch, serveFetch } from '../../../js/src/fetch_node.mjs';
import { carry, serve } from '../../../js/src/http.mjs';
import * as requests from '../../../js/src/request.mjs';

const { Bag, checkOf, Context, EMPTY, extractReply, fromHeader, ingress, LOST, quote, toHeader } = terncommode;
const { add, bound, change, count, current, expect, here, NoRequest, run, Visit } = requests;

const known = new Bag('baggage table 1\n0 0 id scalar fixed32\n0 1 tags set string\n0 2 hops counter\n0 3 debug taint\n');
const tagged = (name) => known.update([], { tags: [name] });
const totalOf = (context) => Number(known.read(context, 'hops').value.total);
const isLost = (context) => context.equals(context.join(LOST));

/** What was told to be in time, by all that works on a visit. */
class Notes {
  tags = new Set();
  hops = 0;

  tag(name, isInTime) {
    if (isInTime) this.tags.add(name);
  }

  check(context) {
    const tags = known.text(context, 'tags');
    const sorted = [...this.tags].sort((a, b) => Buffer.compare(Buffer.from(a), Buffer.from(b)));
    assert.deepStrictEqual(tags, { text: `{${sorted.map(quote).join(',')}}`, exact: true });
    assert(known.text(context, 'hops').exact);
    assert.strictEqual(totalOf(context), this.hops);
  }
}

/** The work of one task: it adds a tag, changes the context, and counts. */
function work(notes, name) {
  notes.tag(name, add(tagged(name)));
  notes.tag(`${name}!`, change((before) => known.update([before], { tags: [`${name}!`] })));
  if (count(known, 'hops', 2)) notes.hops += 2;
}

const after = (run) => new Promise((done) => { run(done); });

// ---- ways to run things

const emitter = new EventEmitter(); // made before any request, as a pool's
const queue = [];
let wakeConsumer = () => {};
(async () => {
  for (;;) {
    while (queue.length > 0) queue.shift()();
    await after((done) => { wakeConsumer = done; });
  }
})();

const ways = {
  sequence: (notes) => { for (let turn = 0; turn < 5; turn += 1) work(notes, `${turn}`); },
  await: async (notes) => { for (let turn = 0; turn < 5; turn += 1) { await null; work(notes, `${turn}`); } },
  all: (notes) => Promise.all([...Array(20).keys()].map(async (task) => { await timers.setTimeout(task % 3); work(notes, `${task}`); })),
  race: (notes) => Promise.all([Promise.race([timers.setTimeout(1).then(() => work(notes, 'slow')), Promise.resolve().then(() => work(notes, 'fast'))]), timers.setTimeout(5)]),
  timeout: (notes) => after((done) => setTimeout(() => { work(notes, 'timer'); done(); }, 1)),
  interval: (notes) => after((done) => { let turn = 0; const it = setInterval(() => { work(notes, `${turn}`); turn += 1; if (turn === 3) { clearInterval(it); done(); } }, 1); }),
  immediate: (notes) => after((done) => setImmediate(() => { work(notes, 'immediate'); done(); })),
  tick: (notes) => after((done) => process.nextTick(() => { work(notes, 'tick'); done(); })),
  microtask: (notes) => after((done) => queueMicrotask(() => { work(notes, 'microtask'); done(); })),
  callbacks: (notes) => after((done) => fs.stat('/', () => { work(notes, 'stat'); fs.readdir('/', () => { work(notes, 'readdir'); done(); }); })),
  promisified: async (notes) => { await promisify(fs.stat)('/'); work(notes, 'stat'); },
  streams: (notes) => pipeline(Readable.from(['a', 'b']), new Transform({ objectMode: true, transform(it, _, next) { work(notes, `t${it}`); next(null, it); } }),
    new Writable({ objectMode: true, write(it, _, next) { setTimeout(() => { work(notes, `w${it}`); next(); }, 1); } })),
  generator: async (notes) => { async function* gives() { for (let turn = 0; turn < 3; turn += 1) { await null; work(notes, `g${turn}`); yield turn; } } for await (const turn of gives()) work(notes, `${turn}`); },
  'emitter from outside': (notes) => after((done) => {
    emitter.once('told', () => assert.throws(() => work(notes, 'unbound'), NoRequest));
    emitter.once('told', bound(() => { work(notes, 'bound'); done(); }));
    queueMicrotask(() => run(undefined, () => emitter.emit('told')));
  }),
  'a queue whose consumer began before': (notes) => after((done) => {
    queue.push(() => assert.throws(() => work(notes, 'unbound'), NoRequest), bound(() => { work(notes, 'bound'); done(); }));
    wakeConsumer();
  }),
  'a thenable': async (notes) => { await { then: (done) => { work(notes, 'then'); done(); } }; work(notes, 'after'); },
  'steps that come back': (notes) => { notes.tag('outer', change((before) => { work(notes, 'inner'); return known.update([before], { tags: ['outer'] }); })); },
  'steps that wait': async (notes) => {
    const told = change(async (before) => { await timers.setTimeout(2); return known.update([before], { tags: ['slow'] }); });
    work(notes, 'meanwhile');
    notes.tag('slow', await told);
  },
  'steps that throw': async (notes) => {
    assert.throws(() => change(() => { throw new Error('no'); }), { message: 'no' });
    await assert.rejects(change(async () => { throw new Error('no'); }), { message: 'no' });
    assert.throws(() => change((before) => known.update([before], { id: 'x' })), terncommode.BadWrite);
    assert.throws(() => change(() => 7), TypeError);
    assert.throws(() => count(known, 'nope'), terncommode.NoField);
    assert.throws(() => count(known, 'tags'), terncommode.BadWrite);
    for (const wrong of [-1, 2n ** 64n, 1.5, '1', 2 ** 53]) assert.throws(() => count(known, 'hops', wrong), terncommode.BadWrite);
    assert.throws(() => add('x'), TypeError);
    work(notes, 'after');
  },
  'a branch that comes back': (notes) => {
    const branch = requests.branch();
    run(branch, work, notes, 'branch');
    work(notes, 'trunk');
    notes.tag('branch', add(branch.context));
  },
  'a branch that stays': (notes) => {
    const others = new Notes();
    const branch = requests.branch();
    run(branch, work, others, 'branch');
    others.check(branch.end());
    work(notes, 'trunk');
  },
  'a worker thread': async (notes) => {
    const worker = new Worker(new URL(import.meta.url), { workerData: toHeader(current()) });
    const [value] = await once(worker, 'message');
    assert(here());
    notes.tag('worker', add(fromHeader(value)));
    notes.hops += 2;
    notes.tags.add('worker!');
    await worker.terminate();
  },
  'what is handed out is a copy': (notes) => { work(notes, 'before'); current().bytes().fill(0xff); notes.tag('x', change((before) => { before.bytes().fill(0xff); return before.join(tagged('x')); })); },
};

async function theWays() {
  for (const [name, way] of Object.entries(ways)) {
    const notes = new Notes();
    const request = new Visit(EMPTY);
    await run(request, way, notes);
    assert.strictEqual(here(), undefined);
    try {
      notes.check(request.end());
    } catch (error) {
      error.message = `${name}: ${error.message}`;
      throw error;
    }
  }
  assert(isLost(current()));
  for (const call of [() => add(EMPTY), () => change((it) => it), () => count(known, 'hops'), expect, requests.branch, requests.end, () => bound(() => {})]) assert.throws(call, NoRequest);
  const notes = new Notes();
  const request = new Visit(EMPTY);
  run(request, work, notes, 'in time');
  const back = request.end();
  run(request, work, notes, 'late');
  notes.check(back);
  assert.deepStrictEqual([request.late, totalOf(request.context)], [3, 4]);
  // Where somebody wrote what the table doesn't allow, counts aren't lost.
  const ill = new Visit(new Context(Uint8Array.from(Buffer.from('02f80003007878', 'hex'))));
  assert.throws(() => known.text(ill.context, 'hops'), terncommode.IllTyped);
  assert(ill.count(known, 'hops') && ill.count(known, 'hops'));
  const hops = new Bag('baggage table 1\n0 2 hops counter\n').text(ill.end(), 'hops');
  assert(hops.exact && hops.text.startsWith('2{'), hops.text);
}

// ---- over http

const MESH = { hosts: ['127.0.0.1'] };

const listening = async (listener, options) => {
  const server = options === 'raw' ? net.createServer(listener) : http.createServer(serve(listener, options));
  await after((done) => server.listen(0, '127.0.0.1', done));
  return server;
};

/** Asks a server within the request that runs here; the status, or the error's code. */
const asks = (server, { path = '/', method = 'GET', headers = {}, ...options } = {}) =>
  after((done) => {
    const asked = carry(http.request({ host: '127.0.0.1', port: server.address().port, path, method, headers, agent: false }), { ...MESH, ...options });
    asked.on('response', (response) => { response.resume(); response.on('close', () => done(response)); });
    asked.on('error', (error) => asked.once('close', () => done(error.code)));
    asked.end();
  });

const counting = (_, response) => { count(known, 'hops'); add(tagged('served')); response.end('ok'); };

async function counters() {
  const server = await listening(counting, { trusted: true });
  const front = await listening(async (message, response) => {
    await Promise.all([...Array(10)].map(() => asks(server))); // to one instance, by ten calls beside one another
    for (let turn = 0; turn < 3; turn += 1) await asks(server); // retries
    count(known, 'hops', 5);
    response.writeHead(200, { 'cache-control': 'max-age=60', 'x-other': 'y' });
    add(tagged('late'));
    response.end();
  }, { trusted: true });
  const request = new Visit(EMPTY);
  const response = await run(request, asks, front);
  assert.strictEqual(response.headers['cache-control'], 'max-age=60, no-cache="terncommode"');
  assert.strictEqual(response.headers['terncommode-for'], checkOf(toHeader(EMPTY)));
  assert.deepStrictEqual([totalOf(request.end()), known.text(request.end(), 'hops').exact, known.text(request.end(), 'tags').text], [18, true, '{"served"}']);
  const many = new Visit(EMPTY);
  await run(many, async () => { for (let turn = 0; turn < 200; turn += 1) await asks(server); });
  assert(!known.text(many.end(), 'hops').exact); // of more visits than a budget has place for, the rest is cut, and that is told
  server.close();
  front.close();
}

/** Two calls of which one is to answer first; and each visit has a writer of its own, also after a restart. */
function hedges() {
  const serves = (sent) => {
    const visit = new Visit(fromHeader(sent));
    visit.count(known, 'hops', 2);
    return extractReply({ terncommode: toHeader(visit.end()), 'terncommode-for': checkOf(sent) }, sent);
  };
  for (const both of [true, false]) {
    const request = new Visit(EMPTY);
    const sent = toHeader(request.context);
    const [first, second] = [request.expect(), request.expect()];
    assert(first.came(serves(sent)));
    const before = both ? undefined : request.end();
    assert.strictEqual(second.came(serves(sent)), both);
    const back = before ?? request.end();
    assert.deepStrictEqual([totalOf(back), known.text(back, 'hops').exact, totalOf(request.context), request.late], [both ? 4 : 2, true, 4, both ? 0 : 1]);
  }
  const visits = [...Array(300)].map(() => { const visit = new Visit(EMPTY); visit.count(known, 'hops'); return visit.end(); });
  assert.strictEqual(totalOf(Context.join(visits)), 300);
}

async function heads() {
  const wants = (response) => [response.headers['cache-control'], response.headers['x-a']];
  const ends = {
    end: (response) => response.end('x'),
    write: (response) => { response.setHeader('x-a', '1'); response.write('x'); response.end(); },
    'flushed headers': (response) => { response.setHeader('x-a', '1'); response.flushHeaders(); response.end(); },
    object: (response) => response.writeHead(200, { 'X-A': 1, 'Cache-Control': 'no-cache="terncommode"' }).end(),
    'words and a list': (response) => response.writeHead(200, 'Fine', ['x-a', '1', 'cache-control', 'private', 'terncommode', '.AAAAAA']).end(),
  };
  for (const [name, end] of Object.entries(ends)) {
    const server = await listening((_, response) => { count(known, 'hops'); end(response); }, { trusted: true });
    const request = new Visit(EMPTY);
    const response = await run(request, asks, server);
    assert.strictEqual(totalOf(request.end()), 1, name);
    assert(wants(response)[0].includes('no-cache="terncommode"') && (name === 'end' || wants(response)[1] === '1'), name);
    server.close();
  }
}

/** Replies that never come, begin, or come, and whether the request is lost then. */
async function replies() {
  const begins = {
    'closed before a byte': [(socket) => socket.destroy(), false],
    'closed within the head': [(socket) => socket.end('HTTP/1.1 200 OK\r\nterncommode: '), true],
    'no head': [(socket) => socket.end('nonsense\r\n\r\n'), true],
    'a hundred only': [(socket) => { socket.write('HTTP/1.1 103 Early Hints\r\n\r\n'); setTimeout(() => socket.destroy(), 5); }, true],
    'no context': [(socket) => socket.end('HTTP/1.1 200 OK\r\nContent-Length: 0\r\n\r\n'), true],
    'for another request': [(socket) => socket.end(`HTTP/1.1 200 OK\r\nterncommode: ${toHeader(tagged('x'))}\r\nterncommode-for: AAAAAB\r\n\r\n`), true],
    'for none': [(socket) => socket.end(`HTTP/1.1 200 OK\r\nterncommode: ${toHeader(tagged('x'))}\r\n\r\n`), true],
    'for two': [(socket) => socket.end(`HTTP/1.1 200 OK\r\nterncommode: ${toHeader(tagged('x'))}\r\nterncommode-for: AAAAAA\r\nterncommode-for: AAAAAA\r\n\r\n`), true],
    'a body that breaks': [(socket) => socket.end(`HTTP/1.1 200 OK\r\nterncommode: ${toHeader(tagged('x'))}\r\nterncommode-for: AAAAAA\r\nContent-Length: 9\r\n\r\nx`), false],
  };
  for (const [name, [begin, expected]] of Object.entries(begins)) {
    const server = await listening((socket) => { socket.on('error', () => {}); socket.once('data', () => begin(socket)); }, 'raw');
    const request = new Visit(EMPTY);
    await run(request, asks, server);
    assert.strictEqual(isLost(request.end()), expected, name);
    if (name === 'a body that breaks') assert(request.end().equals(tagged('x')));
    const lossy = new Visit(EMPTY);
    if (name === 'closed before a byte') await run(lossy, asks, server, { onFailure: 'lost' });
    else lossy.add(LOST);
    assert(isLost(lossy.end()), name);
    server.close();
  }
  // Between a 103 and the reply what is held is lost, and afterwards it isn't.
  const early = await listening((socket) => socket.once('data', () => {
    socket.write('HTTP/1.1 103 Early Hints\r\n\r\n');
    setTimeout(() => socket.end('HTTP/1.1 200 OK\r\nterncommode: .AAAAAA\r\nterncommode-for: AAAAAA\r\n\r\n'), 5);
  }), 'raw');
  const hinted = new Visit(EMPTY);
  const asked = run(hinted, () => carry(http.request({ host: '127.0.0.1', port: early.address().port, agent: false }), MESH));
  asked.end();
  await once(asked, 'information');
  assert(isLost(hinted.context));
  await once(asked, 'response');
  assert(hinted.context.equals(EMPTY));
  early.close();
  const refused = await listening(() => {}, 'raw');
  const address = { address: () => refused.address() };
  const port = refused.address().port;
  await after((done) => refused.close(done));
  const request = new Visit(EMPTY);
  assert.strictEqual(await run(request, asks, { address: () => ({ port }) }), 'ECONNREFUSED', String(address));
  assert(request.end().equals(EMPTY));
  // A count goes on while a reply is on the way; what a step makes then is lost, and stays so.
  const meanwhile = new Visit(EMPTY);
  const [waits, again] = [meanwhile.expect(), meanwhile.expect()];
  waits.began();
  meanwhile.count(known, 'hops');
  assert(waits.came(EMPTY) && known.text(meanwhile.context, 'hops').exact);
  again.began();
  meanwhile.change((before) => { assert(isLost(before)); return before; });
  assert(again.came(EMPTY) && isLost(meanwhile.end()));
  const reply = request.expect();
  reply.began();
  assert(isLost(request.context) && isLost(request.branch().context));
  assert.strictEqual(reply.came(EMPTY), false);
  assert(request.context.equals(EMPTY));
}

async function edges() {
  const seen = [];
  const inside = await listening((message, response) => { seen.push(message.headers.terncommode); add(tagged('inside')); response.end(); }, { trusted: true });
  const edge = await listening(async (message, response) => {
    seen.push([message.headers.terncommode, message.headers.baggage, message.headersDistinct.terncommode, message.rawHeaders.filter((word) => /terncommode/i.test(word)).length, Buffer.from(current().bytes()).toString('hex')]);
    await asks(inside, { hosts: [] });
    await asks(inside);
    response.end();
  }, {});
  const stranger = await fetch(`http://127.0.0.1:${edge.address().port}/`, { headers: { terncommode: toHeader(tagged('x')), baggage: 'k=1, terncommode=AA.0gLvjQ;p=2' } });
  assert.deepStrictEqual([...stranger.headers.keys()].filter((name) => name.startsWith('terncommode')), []);
  assert.deepStrictEqual(seen, [[undefined, 'k=1', undefined, 0, ''], undefined, toHeader(EMPTY)]);
  const known2 = await listening((_, response) => response.end(Buffer.from(current().bytes()).toString('hex')), { bag: new Bag('baggage table 1\n0 0 id scalar fixed32\n'), limits: { dropsPartial: true } });
  const came = await fetch(`http://127.0.0.1:${known2.address().port}/`, { headers: { terncommode: toHeader(known.update([], { id: 7, debug: true })) } });
  assert.strictEqual(await came.text(), '02f800050000000007');
  for (const server of [inside, edge, known2]) server.close();
}

/** A counter is what stands at the numbers of its path: however it is named, and in whatever excerpt, what was counted is added up. */
function names() {
  const renamed = new Bag('baggage table 1\n0 0 id scalar fixed32\n0 2 jumps counter\n');
  const elsewhere = new Bag('baggage table 1\n0 5 hops counter\n0 7 in bag\n1 2 hops counter\n');
  const visit = new Visit(EMPTY);
  visit.count(known, 'hops', 2);
  visit.count(known.only('hops'), 'hops', 3);
  visit.count(renamed, 'jumps');
  visit.count(elsewhere, 'hops', 10);
  visit.count(elsewhere, 'in.hops', 20);
  const said = visit.end();
  const totals = [[known, 'hops'], [renamed, 'jumps'], [elsewhere, 'hops'], [elsewhere, 'in.hops']].map(([bag, path]) => Number(bag.read(said, path).value.total));
  assert.deepStrictEqual(totals, [6, 6, 10, 20]);
  assert.strictEqual(known.read(said, 'hops').value.size, 1); // one writer a visit
  const branch = visit.branch();
  branch.count(known, 'hops', 4);
  assert.strictEqual(totalOf(said.join(branch.end())), 10);
}

// ---- over fetch

/** What a reply to fetch makes of the visit, with the same rules as over http. */
async function fetches() {
  const counted = await listening(counting, { trusted: true });
  const asks = carryFetch({ hosts: ['127.0.0.1'] });
  const asked = async (server, init) => {
    const visit = new Visit(EMPTY);
    const told = await run(visit, () => asks(`http://127.0.0.1:${server.address().port}/`, init).then((response) => response.text().then(() => response.status), (error) => error));
    return [visit.end(), told];
  };
  const [said] = await asked(counted, { method: 'POST', body: 'x' });
  assert.deepStrictEqual([totalOf(said), known.read(said, 'hops').exact], [1, true]);
  await assert.rejects(asks('http://127.0.0.1:1/'), NoRequest);
  const ten = new Visit(EMPTY);
  await run(ten, () => Promise.all([...Array(10)].map(() => asks(`http://127.0.0.1:${counted.address().port}/`).then((it) => it.text()))));
  assert.strictEqual(totalOf(ten.end()), 10);
  // Strangers' hosts are told nothing, nor heard, and a redirect is asked for its host again.
  const seen = [];
  const stranger = await listening((message, response) => { seen.push(message.headers.terncommode, message.headers.baggage, message.headers.authorization); response.setHeader('terncommode', toHeader(tagged('stranger'))); response.end(); }, { trusted: true });
  const leads = await listening((message, response) => { add(tagged(`led ${message.method}`)); response.writeHead(message.url === '/307' ? 307 : 302, { location: `http://localhost:${stranger.address().port}/` }).end(); }, { trusted: true });
  const visit = new Visit(tagged('mine'));
  const members = carryFetch({ hosts: ['127.0.0.1'], member: true });
  for (const path of ['/302', '/307']) await run(visit, () => members(`http://127.0.0.1:${leads.address().port}${path}`, { method: 'POST', body: 'x', headers: { baggage: 'k=1', authorization: 'a' } }).then((it) => it.text()));
  assert.deepStrictEqual(seen, [undefined, 'k=1', undefined, undefined, 'k=1', undefined]);
  assert.deepStrictEqual(known.text(visit.end(), 'tags'), { text: '{"led POST","mine"}', exact: true });
  await assert.rejects(run(new Visit(EMPTY), () => asks(`http://127.0.0.1:${leads.address().port}/302`, { redirect: 'error' })), TypeError);
  assert.strictEqual((await run(new Visit(EMPTY), () => asks(`http://127.0.0.1:${leads.address().port}/302`, { redirect: 'manual' }))).status, 302);
  for (const server of [counted, stranger, leads]) server.close();
  const begins = {
    'closed within the head': [(socket) => socket.end('HTTP/1.1 200 OK\r\nterncommode: '), true],
    'no context': [(socket) => socket.end('HTTP/1.1 200 OK\r\nContent-Length: 0\r\n\r\n'), true],
    'for another request': [(socket) => socket.end(`HTTP/1.1 200 OK\r\nContent-Length: 0\r\nterncommode: ${toHeader(tagged('x'))}\r\nterncommode-for: AAAAAB\r\n\r\n`), true],
    'for two': [(socket) => socket.end('HTTP/1.1 200 OK\r\nContent-Length: 0\r\nterncommode: .AAAAAA\r\nterncommode-for: AAAAAA\r\nterncommode-for: AAAAAA\r\n\r\n'), true],
    'in time': [(socket) => socket.end('HTTP/1.1 200 OK\r\nContent-Length: 0\r\nterncommode: .AAAAAA\r\nterncommode-for: AAAAAA\r\n\r\n'), false],
  };
  for (const [name, [begin, expected]] of Object.entries(begins)) {
    const server = await listening((socket) => { socket.on('error', () => {}); socket.once('data', () => begin(socket)); }, 'raw');
    assert.strictEqual(isLost((await asked(server))[0]), expected, name);
    server.close();
  }
  const refused = await listening(() => {}, 'raw');
  const gone = { address: () => ({ port: gone.port }), port: refused.address().port };
  await after((done) => refused.close(done));
  assert((await asked(gone))[0].equals(EMPTY));
  assert(isLost((await run(new Visit(EMPTY), async () => { await assert.rejects(carryFetch({ hosts: ['127.0.0.1'], onFailure: 'lost' })(`http://127.0.0.1:${gone.port}/`)); return here(); })).end()));
}

/** Handlers of requests of fetch, within and at the edge. */
async function handlers() {
  const value = toHeader(tagged('came'));
  const handle = serveFetch(async (request, visit) => { await null; add(tagged('here')); assert.strictEqual(here(), visit); return new Response(request.headers.get('terncommode') ?? '-', { headers: { 'cache-control': 'private' } }); }, { trusted: true });
  const inside = await handle(new Request('http://a/', { headers: { terncommode: value } }));
  assert.deepStrictEqual(known.text(extractReply(inside.headers, value), 'tags'), { text: '{"came","here"}', exact: true });
  assert.strictEqual(inside.headers.get('cache-control'), 'private, no-cache="terncommode"');
  assert(isLost(fromHeader((await handle(new Request('http://a/'))).headers.get('terncommode'))));
  const edge = serveFetch((request) => new Response(`${request.headers.get('terncommode')} ${request.headers.get('baggage')} ${current()}`));
  const outside = await edge(new Request('http://a/', { headers: { terncommode: value, baggage: 'k=1,terncommode=AA.0gLvjQ' } }));
  assert.deepStrictEqual([await outside.text(), outside.headers.get('terncommode')], ['null k=1 .AAAAAA', null]);
  const lets = serveFetch((_, visit) => Response.json({ visit: visit.context }), { bag: known.only('id') });
  const id = known.update([], { id: 7 });
  assert.deepStrictEqual(await (await lets(new Request('http://a/', { headers: { terncommode: toHeader(id) } }))).json(), { visit: toHeader(id) });
  const member = serveFetch((_, visit) => new Response(`${visit.context}`), { trusted: true, member: true });
  assert.strictEqual(await (await member(new Request('http://a/', { headers: { baggage: `k=1, terncommode=${value};p` } }))).text(), value);
  assert.strictEqual(await (await member(new Request('http://a/', { headers: { baggage: 'k=1' } }))).text(), toHeader(LOST));
}

// ---- what strangers send

const bytesOf = (digits) => (digits === '-' ? new Uint8Array(0) : Uint8Array.from(Buffer.from(digits, 'hex')));

async function strangers() {
  const lines = [];
  for await (const line of createInterface({ input: process.stdin })) {
    const [table, letters, parts, text, budget, drops, ...values] = line.split(' ');
    const limits = { letters: Number(letters), parts: Number(parts), text: Number(text), budget: Number(budget), dropsPartial: drops !== '0' };
    lines.push(Buffer.from(ingress(values.map(bytesOf), new Bag(Buffer.from(bytesOf(table)).toString()), limits).bytes()).toString('hex') || '-');
  }
  process.stdout.write(lines.map((line) => `${line}\n`).join(''));
}

if (!isMainThread) {
  const request = new Visit(fromHeader(workerData));
  run(request, work, new Notes(), 'worker');
  parentPort.postMessage(toHeader(request.end()));
} else if (process.argv[2] === 'ingress') {
  await strangers();
} else {
  await theWays();
  await counters();
  hedges();
  names();
  await heads();
  await replies();
  await edges();
  await fetches();
  await handlers();
  console.log(`${Object.keys(ways).length} ways, http, fetch`);
  process.exit(0);
}
