// Contexts in headers, in metadata, in members of `baggage`, and over carriers of bytes.
import { bytesOf, bytesOfPart, Context, contextOf, copyOf, EMPTY, isBytes, LOST, readOrLost } from './context.mjs';
import { Fault, shown } from './errors.mjs';
import { FORM_ONE, join } from './library.mjs';

export const HEADER = 'terncommode';
/** The header of a reply that says which request it answers: see checkOf. */
export const FOR_HEADER = 'terncommode-for';
/** The key of gRPC's metadata. */
export const GRPC_KEY = 'terncommode-bin';
/** The header of W3C's baggage, one member of which may carry a context. */
export const BAGGAGE = 'baggage';
/** How many bytes a context may have in a request's header, in a reply's, and in gRPC's metadata. Whoever sends cuts to them. */
export const REQUEST_BUDGET = 3000;
export const REPLY_BUDGET = 2000;
export const GRPC_BUDGET = 4000;

// What W3C's baggage promises to carry: members and letters of a header. OpenTelemetry's own limit of a member.
const BAGGAGE_MEMBERS = 64;
const BAGGAGE_LETTERS = 8192;
const MEMBER_LETTERS = 4096;
const NO_CACHE = `no-cache="${HEADER}"`;
/** A text without the blanks around it that a header may have. */
export const trimmed = (text) => text.replace(/^[ \t]+|[ \t]+$/g, '');

/** A header's value as a string with a character for each byte, as Node and fetch give it. */
export function textOf(value) {
  if (typeof value === 'string') return value;
  if (!isBytes(value)) throw new TypeError(`a header's value is a string or a Uint8Array, not ${shown(value)}`);
  return Array.from(value, (byte) => String.fromCharCode(byte)).join('');
}

/** What isn't a Context is no context that stands for none, also where a header is there. */
export function checkAbsent(absent) {
  bytesOf(absent);
  return absent;
}

/** The value of a header that carries the context. It has only letters, digits, `-`, `_` and `.`. */
export function toHeader(context) {
  bytesOf(context);
  return context.toString();
}

/** The merge of bytes that parts carried, lost where there are none. One call where all are good. */
function merged(found) {
  const good = found.filter((bytes) => bytes !== undefined);
  try {
    return contextOf(join(FORM_ONE, good.length < found.length ? [...good, bytesOf(LOST)] : good));
  } catch (error) {
    if (!(error instanceof Fault)) throw error;
    return Context.join(found.map((bytes) => (bytes ? readOrLost(bytes) : LOST)));
  }
}

/** The parts of all values of a header, equal ones once. */
export const partsOf = (values) => [...new Set(values.flatMap((value) => textOf(value).split(',').map(trimmed)))];

/**
 * The context that all values of a header carry. What can't be read is lost. `absent` stands for no value at all: EMPTY at an edge, where a request
 * begins,
 * and LOST inside, where a context was promised.
 */
export function extractValues(values, absent) {
  checkAbsent(absent);
  return values.length > 0 ? merged(partsOf(values).map(bytesOfPart)) : absent;
}

/** The context that one value of a header carries. */
export const fromHeader = (value) => extractValues([value], EMPTY);

const isNamed = (other, name) => String(other).toLowerCase() === name;

/** Pairs of the names and the values of the lines of a message of node:http. */
export const linesOf = ({ rawHeaders }) => rawHeaders.flatMap((name, at) => (at % 2 === 0 ? [[name, rawHeaders[at + 1]]] : []));

/**
 * All values of a header in headers: those of fetch, an object or a Map of names to values or to lists of values, or pairs; or in a message that
 * has some, of Node or
 * of fetch. Values that are undefined aren't there.
 */
export function valuesOf(headers, name) {
  if (typeof headers !== 'object' || headers === null) throw new TypeError(`headers are an object, Headers or pairs, not ${shown(headers)}`);
  if (Array.isArray(headers.rawHeaders)) return valuesOf(linesOf(headers), name);
  if (typeof headers.headers?.get === 'function') return valuesOf(headers.headers, name);
  if (typeof headers.get === 'function' && !(headers instanceof Map)) {
    const value = headers.get(name);
    return value === null || value === undefined ? [] : [value].flat();
  }
  const pairs = typeof headers[Symbol.iterator] === 'function' ? [...headers] : Object.entries(headers);
  return pairs.filter(([other]) => isNamed(other, name)).flatMap(([, value]) => value).filter((value) => value !== undefined);
}

/** The context that came in headers: the merge of all that the header says, lost where it can't be read, `absent` without one. */
export const extract = (headers, absent) => extractValues(valuesOf(headers, HEADER), absent);

/** Sets a header in headers of fetch, in a Map, in an object, or in what has setHeader as Node's messages, in place of all that have the name. */
export function setHeader(headers, name, value) {
  if (typeof headers.setHeader === 'function') {
    headers.setHeader(name, value);
    return;
  }
  dropHeader(headers, name);
  if (typeof headers.set === 'function') headers.set(name, value);
  else headers[name] = value;
}

/** Takes a header out of headers. */
export function dropHeader(headers, name) {
  if (typeof headers.removeHeader === 'function') {
    headers.removeHeader(name);
    return;
  }
  if (typeof headers.delete === 'function') {
    for (const other of [...headers.keys()]) if (isNamed(other, name)) headers.delete(other);
    return;
  }
  for (const other of Object.keys(headers)) if (isNamed(other, name)) delete headers[other];
}

/**
 * Sets the header in what is sent on. A context that is longer than the channel takes is cut before: `inject(headers, context.cut(REQUEST_BUDGET))`.
 */
export function inject(headers, context) {
  if (typeof headers !== 'object' || headers === null || Array.isArray(headers)) throw new TypeError(`headers are an object, a Map or Headers, not ${shown(headers)}`);
  setHeader(headers, HEADER, toHeader(context));
}

/** The check of the first part of a header's value, which a reply to it has in its header `terncommode-for`; undefined where the part has none. */
export function checkOf(value) {
  const part = trimmed(textOf(value).split(',', 1)[0]);
  return /^[\w-]*\.[\w-]{6}$/.test(part) ? part.slice(-6) : undefined;
}

/**
 * The context of a reply with these headers, to the request that was sent with the value `sent`. A reply to another request, as a shared cache
 * gives it, is lost, and so is
 * one that doesn't say which.
 */
export function extractReply(headers, sent) {
  const check = sent === undefined ? undefined : checkOf(sent);
  const answers = valuesOf(headers, FOR_HEADER);
  return check !== undefined && answers.length === 1 && trimmed(textOf(answers[0])) === check ? extract(headers, LOST) : LOST;
}

/** The value of Cache-Control of a reply that carries a context, of which this was the value: no shared cache answers another request with it. */
export function noCache(value = '') {
  if (trimmed(value) === '') return NO_CACHE;
  const found = [...value.matchAll(/(?:^|,)\s*no-cache\s*=\s*"([^"]*)"/gi)];
  const isNamedThere = found.some(([, names]) => names.split(',').some((name) => trimmed(name).toLowerCase() === HEADER));
  return isNamedThere ? value : `${value}, ${NO_CACHE}`;
}

/** Sets the headers of a reply: the context, which request it answers (that with these headers), and that no shared cache may keep the context. */
export function injectReply(headers, context, received) {
  answer(headers, context, valuesOf(received, HEADER));
}

/** Sets the headers of a reply to a request whose header came with these values. */
export function answer(headers, context, came) {
  const check = came.length > 0 ? checkOf(came[0]) : undefined;
  setHeader(headers, HEADER, toHeader(context));
  if (check === undefined) dropHeader(headers, FOR_HEADER);
  else setHeader(headers, FOR_HEADER, check);
  const before = typeof headers.getHeader === 'function' ? [headers.getHeader('cache-control') ?? []].flat() : valuesOf(headers, 'cache-control');
  setHeader(headers, 'cache-control', noCache(before.join(', ')));
}

/** What is sent over a carrier of bytes: form two, of which no part is taken for the whole. */
export function toBinary(context) {
  bytesOf(context);
  return context.bytes(2);
}

/** The context that came over a carrier of bytes; lost where there is no byte, or the bytes are no context's. */
export function fromBinary(bytes) {
  const copy = copyOf(bytes);
  return copy.length === 0 ? LOST : readOrLost(copy);
}

// ---- members of W3C's baggage

const membersOf = (value) => textOf(value).split(',').map(trimmed).filter((member) => member !== '');

const isOwn = (name) => name === HEADER || name.startsWith(`${HEADER}-`);

/** A member's name as readers of members take it, which decode percent signs and blanks. */
function nameOf(member) {
  const name = member.split(/[=;]/, 1)[0].replaceAll('+', ' ');
  try {
    return decodeURIComponent(name).trim().toLowerCase();
  } catch {
    return name.trim().toLowerCase();
  }
}

/** What our members of `baggage` say in headers: parts, as a header of ours has them. */
export const memberValues = (headers) => valuesOf(headers, BAGGAGE).flatMap(membersOf).map((member) => member.split('=')).filter(([name]) => trimmed(name) === HEADER)
  .map(([, ...rest]) => trimmed(rest.join('=').split(';', 1)[0]));

/** The context that our member of `baggage` carries: the merge where there are several, lost where it can't be read, `absent` without one. */
export const extractMember = (headers, absent) => extractValues(memberValues(headers), absent);

/**
 * A value of `baggage` with a member that carries what fits of a context, before the others and in place of those of ours. Where the others leave
 * it no
 * place they stay alone: whoever reads members takes one that isn't there as LOST.
 */
export function withMember(value, context, budget = REQUEST_BUDGET) {
  const others = membersOf(withoutOwn(value));
  const rest = others.join(',');
  const letters = Math.min(MEMBER_LETTERS, BAGGAGE_LETTERS - rest.length - 1) - HEADER.length - '=.CHECK_'.length;
  const own = `${HEADER}=${toHeader(context.cut(Math.min(budget, Math.floor((letters * 3) / 4))))}`;
  const text = rest ? `${own},${rest}` : own;
  return text.length > BAGGAGE_LETTERS || others.length >= BAGGAGE_MEMBERS ? rest : text;
}

/** A value of `baggage` without members of ours, however they are spelled; the empty text where none is left. */
export function withoutOwn(value) {
  const members = membersOf(value);
  const others = members.filter((member) => !isOwn(nameOf(member)));
  return others.length === members.length ? textOf(value) : others.join(',');
}

/** Headers as they are after an edge, as pairs: without ours, and without our members of `baggage`. */
export function afterEdge(pairs) {
  const kept = [];
  for (const [name, value] of pairs) {
    const left = isNamed(name, BAGGAGE) ? withoutOwn(value) : value;
    if (!isOwn(name.toLowerCase()) && (left !== '' || value === '')) kept.push([name, left]);
  }
  return kept;
}
