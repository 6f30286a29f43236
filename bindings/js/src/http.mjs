// Contexts over node:http: a listener or a middleware that runs each request in a visit, and calls that carry what it holds.
import { EMPTY, LOST } from './context.mjs';
import { NoRequest } from './errors.mjs';
import {
  afterEdge, answer, BAGGAGE, checkAbsent, extractReply, extractValues, HEADER, linesOf, memberValues, REPLY_BUDGET, REQUEST_BUDGET, toHeader, withMember,
} from './carriers.mjs';
import { ingress } from './ingress.mjs';
import { here, run, Visit } from './request.mjs';

/** All values of a header, a string for each line that came. */
const valuesIn = (message, name) => linesOf(message).filter(([other]) => other.toLowerCase() === name).map(([, value]) => value);

/** Takes our headers, and our members of `baggage`, out of a stranger's request, so that nobody behind the edge reads them. */
function strip(message) {
  const { headers, headersDistinct, rawHeaders } = message; // both are made of rawHeaders when they are first read
  const before = new Set(linesOf(message).map(([name]) => name.toLowerCase()));
  const lines = afterEdge(linesOf(message));
  rawHeaders.splice(0, rawHeaders.length, ...lines.flat());
  const left = new Set(lines.map(([name]) => name.toLowerCase()));
  for (const name of before) {
    if (left.has(name) && name !== BAGGAGE) continue;
    delete headers[name];
    if (headersDistinct) delete headersDistinct[name];
  }
  const members = valuesIn(message, BAGGAGE);
  if (members.length > 0) {
    headers[BAGGAGE] = members.join(', ');
    if (headersDistinct) headersDistinct[BAGGAGE] = members;
  }
}

function checked({ trusted = false, absent = LOST, bag, limits, budget = REPLY_BUDGET, member = false } = {}) {
  if (typeof trusted !== 'boolean') throw new TypeError('trusted is true or false');
  if (bag) ingress([], bag, limits);
  return { trusted, absent: checkAbsent(absent), bag, limits, budget, member };
}

/** The visit of a message from inside the mesh, or from outside, where a bag may say what comes in. */
function arrived(message, came, { trusted, absent, bag, limits, member }) {
  if (trusted) return new Visit(extractValues(member ? [...came, ...memberValues(linesOf(message))] : came, absent));
  strip(message);
  return new Visit(bag ? ingress(came, bag, limits) : EMPTY);
}

/** The pairs of the headers that writeHead was given, as an object, or as a list of names and values or of pairs. */
function pairsOf(given) {
  if (!Array.isArray(given)) return Object.entries(given ?? {});
  if (Array.isArray(given[0])) return given;
  return given.flatMap((name, at) => (at % 2 === 0 ? [[name, given[at + 1]]] : []));
}

/** The values of each header of pairs, under the name that comes first. */
function byName(pairs) {
  const found = new Map();
  for (const [name, value] of pairs) {
    const key = name.toLowerCase();
    found.set(key, [found.get(key)?.[0] ?? name, [...(found.get(key)?.[1] ?? []), value].flat()]);
  }
  return found.values();
}

/** Sets what the reply says when its head is written: the context, the request that it answers, and Cache-Control. */
function answers(response, visit, came, budget) {
  const { writeHead } = response;
  response.writeHead = function head(status, ...words) {
    response.writeHead = writeHead;
    const text = typeof words[0] === 'string' ? [words[0]] : [];
    for (const [name, values] of byName(pairsOf(words[text.length]))) response.setHeader(name, values.length === 1 ? values[0] : values);
    answer(response, visit.end().cut(budget), came);
    return writeHead.call(response, status, ...text);
  };
}

/** Makes the visit of a message, and lets its reply say what it holds. */
function visited(message, response, options) {
  const came = valuesIn(message, HEADER);
  const visit = arrived(message, came, options);
  if (options.trusted) answers(response, visit, came, options.budget);
  return visit;
}

/**
 * A listener of a server that runs each request in a visit. It is an edge unless `trusted` is said: then the context of strangers isn't read, but
 * for what `bag` lets in,
 * it is taken out of the request, and none is sent back. Trusted, it reads the header, where none came takes `absent`, which is LOST unless said, and
 * sends back what the visit holds when the head of the reply is written. With `member` it reads our member of `baggage` too, and takes `absent`
 * where neither came.
 */
export function serve(listener, options) {
  const known = checked(options);
  return (message, response) => run(visited(message, response, known), listener, message, response);
}

/** The same as a middleware `(request, response, next)`, of Express and its like: put it before all others. */
export function middleware(options) {
  const known = checked(options);
  return (message, response, next) => run(visited(message, response, known), () => next());
}

/** Whether contexts may be sent to a host. */
export const isInside = (hosts, host) => (typeof hosts === 'function' ? Boolean(hosts(host)) : [...hosts].includes(host));

/**
 * Makes a call of http.request carry what the visit that runs here holds, and adds what its reply says. Call it before anything of it is sent.
 * `hosts` are the names of hosts
 * that may have contexts, or a function of a name; to others nothing is sent, and nothing of their replies is taken. A reply of which a byte came
 * and whose head
 * never did is lost; one of which nothing came adds nothing, unless `onFailure` is 'lost'. With `member` the context is sent as a member of
 * `baggage` too.
 */
export function carry(asked, { hosts = [], onFailure = 'nothing', budget = REQUEST_BUDGET, member = false, visit = here() } = {}) {
  if (!visit) throw new NoRequest();
  if (!isInside(hosts, asked.host)) return asked;
  const { context } = visit;
  const sent = toHeader(context.cut(budget));
  const reply = visit.expect();
  let before = 0;
  let hasCome = false;
  asked.setHeader(HEADER, sent);
  if (member) asked.setHeader(BAGGAGE, withMember([asked.getHeader(BAGGAGE) ?? []].flat().join(','), context, budget));
  asked.once('socket', (socket) => { before = socket.bytesRead; });
  asked.on('information', () => reply.began());
  asked.prependOnceListener('response', (response) => {
    hasCome = true;
    reply.came(extractReply(linesOf(response), sent));
    if (asked.listenerCount('response') === 0) response.resume(); // as node does where nobody listens
  });
  asked.once('close', () => {
    if (hasCome) return;
    if (onFailure === 'lost' || (asked.socket?.bytesRead ?? 0) > before) reply.began();
    reply.failed();
  });
  return asked;
}
