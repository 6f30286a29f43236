// Contexts over fetch: a function like fetch that carries a visit's context, and handlers that run each request in a visit.
import { EMPTY, LOST } from './context.mjs';
import { NoRequest } from './errors.mjs';
import {
  afterEdge, answer, BAGGAGE, checkAbsent, extractReply, extractValues, HEADER, memberValues, REPLY_BUDGET, REQUEST_BUDGET, toHeader, valuesOf, withMember, withoutOwn,
} from './carriers.mjs';
import { ingress } from './ingress.mjs';
import { Visit } from './visit.mjs';

const REDIRECTS = [301, 302, 303, 307, 308];
const REDIRECTS_MOST = 20;
// What undici and Node say where no connection was made.
const UNREACHED = ['ECONNREFUSED', 'ENOTFOUND', 'EAI_AGAIN', 'EHOSTUNREACH', 'ENETUNREACH', 'UND_ERR_CONNECT_TIMEOUT'];

const isInside = (hosts, host) => (typeof hosts === 'function' ? Boolean(hosts(host)) : [...hosts].includes(host));

/** Whether an error says that nothing of a reply came. Where that can't be known, something may have come. */
function isUnreached(error) {
  const cause = error?.cause;
  return [cause, ...(cause?.errors ?? [])].some((it) => UNREACHED.includes(it?.code)) || cause?.socket?.bytesRead === 0;
}

/** Asks once, without following. */
async function askOnce(ask, request, { visit, hosts, budget, onFailure, member }) {
  if (!isInside(hosts, new URL(request.url).hostname)) return ask(request);
  const { context } = visit;
  const sent = toHeader(context.cut(budget));
  const reply = visit.expect();
  request.headers.set(HEADER, sent);
  if (member) request.headers.set(BAGGAGE, withMember(request.headers.get(BAGGAGE) ?? '', context, budget));
  try {
    const response = await ask(request);
    reply.came(response.type === 'opaqueredirect' ? LOST : extractReply(response.headers, sent));
    return response;
  } catch (error) {
    if (onFailure === 'lost' || !isUnreached(error)) reply.began();
    reply.failed();
    throw error;
  }
}

/** Takes our member out of `baggage`. */
function dropMember(headers) {
  const left = withoutOwn(headers.get(BAGGAGE) ?? '');
  if (left) headers.set(BAGGAGE, left);
  else headers.delete(BAGGAGE);
}

/** The request that follows a redirect, as fetch makes it. */
function following(request, response, body) {
  const place = new URL(response.headers.get('location'), request.url);
  const { status } = response;
  const isGet = (status === 303 && !['GET', 'HEAD'].includes(request.method)) || ((status === 301 || status === 302) && request.method === 'POST');
  const headers = new Headers(request.headers);
  headers.delete(HEADER);
  dropMember(headers);
  for (const name of isGet ? ['content-encoding', 'content-language', 'content-location', 'content-type'] : []) headers.delete(name);
  for (const name of place.origin === new URL(request.url).origin ? [] : ['authorization', 'cookie', 'host', 'proxy-authorization']) headers.delete(name);
  const sent = isGet || !body ? {} : { body, duplex: 'half' };
  return new Request(place, { method: isGet ? 'GET' : request.method, headers, signal: request.signal, redirect: 'manual', credentials: request.credentials, ...sent });
}

/** Asks, and follows redirects one by one: to each host only what it may have, and of each reply what it says. */
async function askAll(ask, first, redirect, options) {
  let request = first;
  for (let turn = 0; ; turn += 1) {
    const again = redirect === 'follow' && request.body ? request.clone() : undefined;
    const response = await askOnce(ask, request, options);
    if (response.type === 'opaqueredirect' && redirect !== 'manual') throw new TypeError("a redirect that can't be read: ask where it leads");
    if (!REDIRECTS.includes(response.status) || !response.headers.has('location') || redirect === 'manual') return response;
    if (redirect === 'error' || turn === REDIRECTS_MOST) throw new TypeError(redirect === 'error' ? 'a redirect came' : 'too many redirects');
    await response.body?.cancel();
    request = following(request, response, again?.body);
  }
}

/**
 * A function like fetch that carries what a visit holds, and adds what its reply says. `hosts` are the names of hosts that may have contexts, or a
 * function of a name; to
 * others nothing is sent. `visit` is a Visit, or a function that gives it. Fetch hides most of why a call failed: where no connection was made it
 * adds nothing, and
 * else it is lost, unless nothing was read of its connection; with `onFailure` 'lost' always.
 */
export function carryFetch({ hosts = [], visit, budget = REQUEST_BUDGET, onFailure = 'nothing', member = false, fetch: ask = globalThis.fetch } = {}) {
  return async (input, init) => {
    const runs = typeof visit === 'function' ? visit() : visit;
    if (!runs) throw new NoRequest();
    const request = new Request(input, init);
    const { redirect } = request;
    return askAll(ask, new Request(request, { redirect: 'manual' }), redirect, { visit: runs, hosts, budget, onFailure, member });
  };
}

/** The request without what a stranger says of contexts. */
function afterEdgeOf(request) {
  return new Request(request, { headers: afterEdge(request.headers) });
}

function replied(response, visit, came, budget) {
  if (response.status < 200) return response; // another protocol goes on, or an error
  const headers = new Headers(response.headers);
  answer(headers, visit.end().cut(budget), came);
  const { status, statusText } = response;
  return new Response(response.body, { status, statusText, headers });
}

/**
 * A handler `(request, ..) => response`, as of service workers and servers over fetch, that runs each request in a visit; it is called as
 * `(request, visit, ..)`. It is an
 * edge unless `trusted` is said, as `serve` of terncommode/http.
 */
export function serveFetch(handler, { trusted = false, absent = LOST, bag, limits, budget = REPLY_BUDGET, member = false, run = (visit, call) => call() } = {}) {
  if (typeof trusted !== 'boolean') throw new TypeError('trusted is true or false');
  checkAbsent(absent);
  if (bag) ingress([], bag, limits);
  return async (request, ...others) => {
    const came = valuesOf(request.headers, HEADER);
    const stranger = () => (bag ? ingress(came, bag, limits) : EMPTY);
    const said = () => extractValues(member ? [...came, ...memberValues(request.headers)] : came, absent);
    const visit = new Visit(trusted ? said() : stranger());
    const response = await run(visit, () => handler(trusted ? request : afterEdgeOf(request), visit, ...others));
    return trusted ? replied(response, visit, came, budget) : response;
  };
}
