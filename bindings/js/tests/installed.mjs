// The package as it is installed from its tarball: node installed.mjs, in the folder that it is installed in.
import assert from 'node:assert';
import http from 'node:http';
import { readFileSync } from 'node:fs';
import { createRequire } from 'node:module';
import { Bag, EMPTY, extract, LOST, toHeader } from 'terncommode';
import * as bound from 'terncommode/bind';
import { add, current, run, Visit } from 'terncommode/request';
import { Visit as Same } from 'terncommode/visit';
import { carry, middleware, serve } from 'terncommode/http';
import { carryFetch, serveFetch } from 'terncommode/fetch';

assert.deepStrictEqual([bound.EMPTY, Same, typeof middleware, typeof serveFetch], [EMPTY, Visit, 'function', 'function']);
bound.use(new WebAssembly.Module(readFileSync(createRequire(import.meta.url).resolve('terncommode/baggage.wasm'))));
const bag = new Bag('baggage table 1\n0 0 id scalar fixed32\n0 1 tags set string\n');
const server = http.createServer(serve((_, response) => { add(bag.update([], { tags: ['served'] })); response.end(); }, { trusted: true }));
await new Promise((done) => { server.listen(0, '127.0.0.1', done); });
const place = `http://127.0.0.1:${server.address().port}/`;
const visit = new Visit(bag.update([], { id: 7 }));
await run(visit, () => new Promise((done) => { carry(http.request(place, (response) => { response.resume(); response.on('end', done); }), { hosts: ['127.0.0.1'] }).end(); }));
const fetched = await run(visit, async () => { await (await carryFetch({ hosts: ['127.0.0.1'] })(place)).text(); return current(); });
assert.deepStrictEqual([...bag.readAll(fetched)], [['id', { value: 7, exact: true }], ['tags', { value: new Set(['served']), exact: true }]]);
assert(extract({ terncommode: toHeader(fetched) }, LOST).equals(fetched));
server.close();
