// The package in a browser: node page.mjs FOLDER BROWSER. It serves FOLDER, in which the package is installed, and a page that uses it in a window and in a worker.
import assert from 'node:assert';
import { execFile } from 'node:child_process';
import { createReadStream, existsSync, mkdtempSync, rmSync, statSync } from 'node:fs';
import http from 'node:http';
import { tmpdir } from 'node:os';
import { extname, join } from 'node:path';

const [folder, browser] = process.argv.slice(2);
const TYPES = { '.mjs': 'text/javascript', '.wasm': 'application/wasm' };
const WORK = `
import { Bag, Context, LOST, EMPTY, extract, toHeader, fromHeader } from '/node_modules/terncommode/src/web.mjs';
import { carryFetch, serveFetch } from '/node_modules/terncommode/src/fetch.mjs';
import { Visit } from '/node_modules/terncommode/src/visit.mjs';
export async function work(name) {
  const bag = new Bag('baggage table 1\\n0 0 id scalar fixed32\\n0 1 tags set string\\n0 2 hops counter\\n');
  const visit = new Visit(bag.update([], { id: 7, tags: [name] }));
  visit.count(bag, 'hops', 2);
  const asks = carryFetch({ hosts: [location.hostname], visit });
  const said = await (await asks(location.origin + '/echo')).text();
  const lost = await (await asks(location.origin + '/silent')).text().then(() => visit.context.isLost);
  const served = await serveFetch((request, own) => new Response(String(own.context)), { trusted: true })(new Request(location.origin, { headers: { terncommode: said } }));
  return [name, said === toHeader(fromHeader(said)), bag.read(fromHeader(said), 'hops').value.total === 2n, bag.read(fromHeader(said), 'tags').exact, lost, await served.text() === said].join(' ');
}`;
const WORKER = "import { work } from '/work.mjs'; work('worker').then(postMessage, (error) => postMessage(String(error.stack)));";
const PAGE = `<!doctype html><pre id="said"></pre><script type="module">
import { work } from '/work.mjs';
const told = [];
try { told.push(await work('window')); } catch (error) { told.push(String(error.stack)); }
told.push(await new Promise((done) => { const it = new Worker('/worker.mjs', { type: 'module' }); it.onmessage = ({ data }) => done(data); it.onerror = (error) => done('error ' + error.message); }));
await fetch('/said', { method: 'POST', body: told.join('\\n') });
document.querySelector('#said').textContent = told.join('\\n');
</script>`;
const MADE = { '/': [PAGE, 'text/html'], '/work.mjs': [WORK, TYPES['.mjs']], '/worker.mjs': [WORKER, TYPES['.mjs']] };

let tell;
const said = new Promise((done) => { tell = done; });
const ways = {
  '/said': (message, response) => { let text = ''; message.on('data', (more) => { text += more; }); message.on('end', () => { response.end(); tell(text); }); },
  '/echo': (message, response) => {
    const { terncommode } = message.headers;
    response.writeHead(200, { terncommode, 'terncommode-for': terncommode.slice(-6) }).end(terncommode);
  },
  '/silent': (_, response) => response.end('x'),
};
const server = http.createServer((message, response) => {
  const path = message.url.split('?')[0];
  if (ways[path]) { ways[path](message, response); return; }
  const file = join(folder, path);
  if (MADE[path]) response.writeHead(200, { 'content-type': MADE[path][1] }).end(MADE[path][0]);
  else if (!path.includes('..') && existsSync(file) && statSync(file).isFile()) createReadStream(file).pipe(response.writeHead(200, { 'content-type': TYPES[extname(file)] ?? 'text/plain' }));
  else response.writeHead(404).end();
});
await new Promise((done) => { server.listen(0, '127.0.0.1', done); });
const profile = mkdtempSync(join(tmpdir(), 'page.'));
const place = `http://127.0.0.1:${server.address().port}/`;
const words = ['--headless', '--no-sandbox', '--disable-gpu', '--disable-dev-shm-usage', '--no-first-run', `--user-data-dir=${profile}`, '--remote-debugging-port=0', place];
const child = execFile(browser, words, { timeout: 170_000 }, () => tell('the browser ended'));
const limit = setTimeout(() => tell('no answer'), 160_000);
const text = await said;
clearTimeout(limit);
child.kill('SIGTERM');
await new Promise((done) => { if (child.exitCode !== null || child.signalCode) done(); else child.once('exit', done); });
rmSync(profile, { recursive: true, force: true, maxRetries: 5, retryDelay: 200 });
server.close();
server.closeAllConnections();
assert.strictEqual(text, 'window true true true true true\nworker true true true true true');
