// Contexts over node:http: a listener that runs each request in a holder, and calls that carry what it holds. This file is tested, not proved.
import { cut, checkOf, EMPTY, extract, extractReply, FOR_HEADER, HEADER, join, lost, noCache, REPLY_BUDGET, REQUEST_BUDGET, toHeader } from './carriers.mjs';
import { here, NoRequest, Request, run } from './request.mjs';

/** All values of a header, a string for each line that came. */
function valuesOf(message, name) {
  const values = [];
  for (let at = 0; at < message.rawHeaders.length; at += 2) {
    if (message.rawHeaders[at].toLowerCase() === name) values.push(message.rawHeaders[at + 1]);
  }
  return values;
}

const isOurs = (name) => name === HEADER || name.startsWith(`${HEADER}-`);
const DEEPEST = 8; // how often the name of a member may be encoded that is a stranger's own

/**
 * Whether a later service could read a member of `baggage` as one of ours: in whatever case, and percent-encoded, also more than once, since a service with
 * OpenTelemetry may decode a name and send it on.
 */
function isOwn(member) {
  let name = member.split(/[=;]/, 1)[0];
  for (let times = 0, before; before !== name; times += 1) {
    if (times > DEEPEST) return true;
    before = name;
    name = name.replaceAll('+', ' ').replace(/%([0-9a-f]{2})/gi, (_, digits) => String.fromCharCode(parseInt(digits, 16)));
  }
  return isOurs(name.trim().toLowerCase());
}

/** A value of `baggage` without our members. */
const othersOf = (value) => value.split(',').filter((member) => !isOwn(member)).join(',');

/** Takes headers out of a message, by their names in lower case. */
function drop({ headers, headersDistinct, rawHeaders }, isDropped) { // the first two are made of the third when they are first read
  const lines = rawHeaders.flatMap((name, at) => (at % 2 === 0 && !isDropped(name.toLowerCase()) ? [name, rawHeaders[at + 1]] : []));
  rawHeaders.splice(0, rawHeaders.length, ...lines);
  for (const name of Object.keys(headers).filter(isDropped)) {
    delete headers[name];
    delete headersDistinct[name];
  }
}

/** Takes our headers, and our member of `baggage`, out of a stranger's request, so that nobody behind the edge reads them. */
function strip(message) {
  const members = valuesOf(message, 'baggage').map(othersOf).filter((value) => value.trim() !== '');
  drop(message, (name) => isOurs(name) || name === 'baggage');
  if (members.length === 0) return;
  message.rawHeaders.push(...members.flatMap((value) => ['baggage', value]));
  message.headers.baggage = members.join(', ');
  message.headersDistinct.baggage = members;
}

/** The request of a message from inside the mesh, or from outside, where a bag may say what comes in. */
function began(message, { trusted = false, absent = lost(), bag, limits }) {
  const values = valuesOf(message, HEADER);
  if (trusted) return new Request(extract(values, absent));
  strip(message);
  return new Request(bag ? bag.ingress(values, limits) : EMPTY);
}

/** The pairs of the headers that writeHead was given, as an object or as a list of names and values. */
function pairsOf(given) {
  if (!Array.isArray(given)) return Object.entries(given ?? {});
  return given.flatMap((name, at) => (at % 2 === 0 ? [[name, given[at + 1]]] : []));
}

/** Calls `begin` when the head of a reply is written, by writeHead or by itself, once all headers are set. */
function whenItBegins(response, begin) {
  const { writeHead } = response;
  response.writeHead = function head(status, ...words) {
    response.writeHead = writeHead;
    const text = typeof words[0] === 'string' ? [words[0]] : [];
    const given = pairsOf(words[text.length]);
    const named = new Set(given.map(([name]) => name.toLowerCase()));
    for (const name of named) response.removeHeader(name);
    for (const [name, value] of given) response.appendHeader(name, value);
    begin();
    return writeHead.call(response, status, ...text);
  };
}

/** Sets what a reply says: the context, the request that it answers, and Cache-Control. */
function answer(response, request, came, budget) {
  const check = came.length > 0 ? checkOf(came[0]) : undefined;
  // What stands there already came from a service that was asked around carry, so nobody has added it.
  const said = response.hasHeader(HEADER) ? join([request.end(), lost()]) : request.end();
  response.setHeader(HEADER, toHeader(cut(said, budget)));
  if (check === undefined) response.removeHeader(FOR_HEADER);
  else response.setHeader(FOR_HEADER, check);
  response.setHeader('Cache-Control', noCache([response.getHeader('cache-control') ?? []].flat().join(', ')));
}

/** Ends a request at an edge: no context goes back. */
function keepInside(response, request) {
  request.end();
  for (const name of response.getHeaderNames().filter(isOurs)) response.removeHeader(name);
}

/**
 * A listener of a server that runs each request in a holder. It is an edge unless `trusted` is said: then the context of strangers isn't read, but for what `bag` lets in,
 * it is taken out of the request, and none is sent back. Trusted, it reads the header, where none came takes `absent`, which is lost() unless said, and
 * sends back what the request holds when the head of the reply is written. A reply that already has the header is one of a service that was asked around
 * `carry`: it is lost.
 */
export function serve(listener, options = {}) {
  return (message, response) => {
    const came = valuesOf(message, HEADER);
    const request = began(message, options);
    whenItBegins(response, () => (options.trusted ? answer(response, request, came, options.budget ?? REPLY_BUDGET) : keepInside(response, request)));
    return run(request, listener, message, response);
  };
}

/**
 * Makes a call of http.request carry what the request that runs here holds, and adds what its reply says. Call it before anything of it is sent. `hosts` are the names of hosts
 * that may have contexts, or a function of a name; to others nothing is sent, and nothing of their replies is taken. A reply of which a byte came and whose head
 * never did is lost; one of which nothing came adds nothing, unless `onFailure` is 'lost'. What was read is taken out of the reply's headers.
 */
export function carry(asked, { hosts = [], onFailure = 'nothing', budget = REQUEST_BUDGET, request = here() } = {}) {
  if (!request) throw new NoRequest();
  const isInside = typeof hosts === 'function' ? hosts(asked.host) : [...hosts].includes(asked.host);
  if (!isInside) return asked;
  const sent = toHeader(cut(request.context, budget));
  const reply = request.expect();
  let before = 0;
  let hasCome = false;
  asked.setHeader(HEADER, sent);
  asked.once('socket', (socket) => { before = socket.bytesRead; });
  asked.on('information', () => reply.began());
  asked.prependOnceListener('response', (response) => {
    hasCome = true;
    reply.came(extractReply(valuesOf(response, HEADER), valuesOf(response, FOR_HEADER), sent));
    drop(response, (name) => name === HEADER || name === FOR_HEADER); // so that a proxy doesn't hand it on as its own
    if (asked.listenerCount('response') === 0) response.resume(); // as node does where nobody listens
  });
  asked.once('close', () => {
    if (hasCome) return;
    if (onFailure === 'lost' || (asked.socket?.bytesRead ?? 0) > before) reply.began();
    reply.failed();
  });
  return asked;
}
