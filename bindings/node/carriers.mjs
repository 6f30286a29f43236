// Contexts, bags, and how contexts travel, for Node: over the addon of baggage.c, which is built as baggage.node beside this file, or named by
// TERNCOMMODE_ADDON. A context is a Buffer that nobody changes. This file is tested, not proved.
import { createRequire } from 'node:module';
import { resolve } from 'node:path';

const named = process.env.TERNCOMMODE_ADDON;
const addon = createRequire(import.meta.url)(named ? resolve(named) : './baggage.node');

export const HEADER = 'terncommode';
/** The header of a reply that says which request it answers: see checkOf. */
export const FOR_HEADER = 'terncommode-for';
/** The key of gRPC's metadata. */
export const GRPC_KEY = 'terncommode-bin';
/** How many bytes a context may have in a request's header, in a reply's, and in gRPC's metadata. Whoever sends cuts to them. */
export const REQUEST_BUDGET = 3000;
export const REPLY_BUDGET = 2000;
export const GRPC_BUDGET = 4000;
/** How many bytes the text of a field may have: a stranger's context of a few thousand may have one of many millions. */
export const TEXT_LIMIT = 1048576;
export const EMPTY = Buffer.alloc(0);
const NONE = 2n ** 64n - 1n;
const NOTHING_KNOWN = Buffer.from('baggage table 1\n');
const NO_CACHE = `no-cache="${HEADER}"`;

/** The context that was promised and can't be read: a Buffer of its own each time, since a Buffer can be written. */
export const lost = () => Buffer.alloc(1);

/** The merge of contexts. */
export const join = (contexts) => addon.update(NOTHING_KNOWN, contexts, EMPTY, NONE);

/** A context within a budget of bytes. */
export const cut = (context, budget) => addon.update(NOTHING_KNOWN, [context], EMPTY, BigInt(Math.max(budget, 1)));

/** The value of a header that carries the context. */
export const toHeader = (context) => addon.toHeader(context);

// Node gives a header's value as a string with a character for each byte.
const bytesOf = (value) => (typeof value === 'string' ? Buffer.from(value, 'latin1') : value);

/**
 * The context that all values of a header carry: strings as Node gives them, or Buffers. What can't be read is lost. `absent` stands for no value at
 * all: EMPTY at an edge, where a request begins, and lost() inside, where a context was promised.
 */
export function extract(values, absent) {
  if (!(absent instanceof Uint8Array)) throw new TypeError('absent is no context');
  return values.length > 0 ? addon.extract(values.map(bytesOf)) : absent;
}

/** The context that one value of a header carries. */
export const fromHeader = (value) => extract([value], EMPTY);

/** The check of the first part of a header's value, which a reply to it has in its header `terncommode-for`; undefined where the part has none. */
export function checkOf(value) {
  const part = bytesOf(value).toString('latin1').split(',', 1)[0].replace(/^[ \t]+|[ \t]+$/g, '');
  return /\.[\w-]{6}$/.test(part) ? part.slice(-6) : undefined;
}

/**
 * The context of a reply with these values of the header and these of `terncommode-for`, to the request that was sent with the value `sent`. A reply to another
 * request, as a shared cache gives it, is lost, and so is one that doesn't say which.
 */
export function extractReply(values, answers, sent) {
  const check = sent === undefined ? undefined : checkOf(sent);
  return check !== undefined && answers.length === 1 && answers[0] === check ? extract(values, lost()) : lost();
}

/** The value of Cache-Control of a reply that carries a context, of which this was the value: no shared cache answers another request with it. */
export function noCache(value = '') {
  if (value.trim() === '') return NO_CACHE;
  return value.includes(NO_CACHE) ? value : `${value}, ${NO_CACHE}`;
}

/** What is sent over a carrier of bytes: form two, of which no part is taken for the whole. */
export const toBinary = (context) => addon.toBinary(context);

/** The context that came over a carrier of bytes; lost where there is no byte, or the bytes are no context's. */
export const fromBinary = (bytes) => addon.fromBinary(bytes);

/** The literal of a string, as a write has it. */
export const quote = (text) => `"${text.replace(/["\\]/g, '\\$&').replace(/[\0-\x1f\x7f]/g, (it) => `\\x${it.charCodeAt(0).toString(16).padStart(2, '0')}`)}"`;

/** A text as it may be shown to people: what a terminal or a log could obey has an escape in its place, line feeds too. */
export const visible = (text) =>
  text.replace(/[\0-\x1f\x7f-\x9f\u2028-\u202e\u2066-\u2069]/g, (it) => {
    const digits = it.charCodeAt(0).toString(16);
    return it < '\x80' ? `\\x${digits.padStart(2, '0')}` : `\\u${digits.padStart(4, '0')}`;
  });

/** What a service knows: the table of a definition. */
export class Bag {
  #table;

  constructor(table) {
    this.#table = Buffer.from(table);
    this.update([]);
  }

  /** One step of this service: the merge of contexts and of what is written, as pairs of a path and a text, cut to a budget. */
  update(contexts, writes = [], budget) {
    const lines = writes.map(([path, text]) => `${/[ \n]/.test(path) ? '' : path} ${text.includes('\n') ? '' : text}\n`);
    return addon.update(this.#table, contexts, Buffer.from(lines.join('')), budget === undefined ? NONE : BigInt(Math.max(budget, 1)));
  }

  /** The numbers on the way to the counter with a path, which are all that a context has of its name; undefined where no counter has it. */
  counter(path) {
    const names = path.split('.'), way = [];
    for (const line of this.#table.toString('latin1').split('\n').slice(1, -1)) {
      const [depth, number, name, ...shape] = line.split(' ');
      way.length = Math.min(way.length, depth);
      if (way.length !== Number(depth) || name !== names[depth]) continue;
      const isBag = shape[0] === 'bag', isLast = way.length === names.length - 1;
      if (isBag === isLast) continue;
      way.push(number);
      if (isLast) return shape.join(' ') === 'counter' ? way.join('.') : undefined;
    }
    return undefined;
  }

  /** The text of a field, and whether that is all that was said of it. An error with the code '2' where the text has more bytes than the limit. */
  field(context, path, limit = TEXT_LIMIT) {
    return addon.field(this.#table, context, Buffer.from(path), limit);
  }

  /**
   * The context that comes in from outside, in the values of a header: of what strangers say only the fields of this bag, each read and written anew.
   * Limits are { letters, parts, text, budget, dropsPartial }. Where anything stays outside, every field is partial, unless dropsPartial is set.
   */
  ingress(values, limits = {}) {
    return addon.ingress(this.#table, values.map(bytesOf), limits);
  }
}
