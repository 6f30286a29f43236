// What a service knows, and what it writes.
import { bytesOf, bytesOfAll, checkBudget, checkForm, contextOf, copyOf, isBytes } from './context.mjs';
import { BadWrite, IllTyped, NoField, shown } from './errors.mjs';
import * as library from './library.mjs';
import { isCounter, parse, Table } from './values.mjs';

const { FORM_ONE } = library;
const CUT = 1;
const UNSAID = 2;
const LONGEST = { 1: 65_534, 2: 1_048_575 };

/** How many bytes a text of values may have, unless a call says otherwise. A stranger's context of 3,000 bytes may have a text of millions. */
export const REPORT_LIMIT = 1_048_576;

const toText = (bytes) => new TextDecoder('utf-8', { fatal: true, ignoreBOM: true }).decode(bytes);
const toBytes = (text) => new TextEncoder().encode(text);
const ascii = (text) => toBytes(text.replace(/[^\0-\x7f]/g, '?')); // a letter beyond ASCII stands in no table, nor does the question mark

/** What an update writes, one write after another. */
export class Writes {
  #writes = [];

  /** Writes a value, as its field's type has it: a string is quoted, whatever is in it. */
  set(path, value) {
    this.#writes.push({ path, value });
    return this;
  }

  /** Writes a text as docs/FORMATS.md has it, such as `"spring"`, `7` or `0x01:3`. It never becomes two writes. */
  text(path, text) {
    if (typeof path !== 'string' || typeof text !== 'string') throw new TypeError('a path and a text are strings');
    this.#writes.push({ path, text });
    return this;
  }

  [Symbol.iterator]() {
    return this.#writes[Symbol.iterator]();
  }
}

/** The writes of whatever may be handed in for them. */
function writesOf(writes) {
  if (writes instanceof Writes) return writes;
  const arePairs = writes instanceof Map || (Array.isArray(writes) && writes.every((pair) => Array.isArray(pair) && pair.length === 2));
  if (arePairs) return Array.from(writes, ([path, value]) => ({ path, value }));
  const isPlain = typeof writes === 'object' && writes !== null && [Object.prototype, null].includes(Object.getPrototypeOf(writes));
  if (!isPlain) throw new TypeError(`writes are an object of values by path, pairs, Writes, or lines, not ${shown(writes)}`);
  return Object.entries(writes).map(([path, value]) => ({ path, value }));
}

function checkLimit(limit) {
  if (!Number.isSafeInteger(limit) && limit !== Infinity) throw new TypeError(`a limit is a whole number of bytes, not ${shown(limit)}`);
  return Math.max(limit, 0);
}

let tableOf;

/** What a service knows: the text of a table, as `baggage table FILE BAG` prints it. */
export class Bag {
  #text;
  #encoded;
  #table;

  /** Throws BadTable where the text isn't that of a table. */
  constructor(table) {
    if (typeof table !== 'string') throw new TypeError(`a table is a string, not ${shown(table)}`);
    this.#encoded = ascii(table);
    library.checkTable(this.#encoded);
    this.#text = table;
    this.#table = new Table(table);
    Object.freeze(this);
  }

  static {
    tableOf = (bag) => {
      if (typeof bag !== 'object' || bag === null || !(#table in bag)) throw new TypeError(`a bag is a Bag, not ${shown(bag)}`);
      return bag.#table;
    };
  }

  /** The text of the table. */
  get table() {
    return this.#text;
  }

  /** The name paths of all slots, in the order of the table. */
  get slots() {
    return [...this.#table.slots.keys()];
  }

  /** The excerpt with these fields alone, each a slot or a bag with all that it has. Throws NoField. */
  only(...paths) {
    const other = paths.find((path) => !this.#table.fields.has(path));
    if (other !== undefined || paths.includes(undefined)) throw new NoField(0, String(other));
    return new Bag(this.#table.excerpt(paths));
  }

  /**
   * What this service makes of bytes that came, in either form: their context, in normal form for the bag. Throws Fault and IllTyped, with offsets
   * in these bytes.
   */
  receive(bytes) {
    return contextOf(library.update(FORM_ONE, this.#encoded, [copyOf(bytes)], new Uint8Array(0)));
  }

  /**
   * One step of this service: the merge of contexts and of what is written, in normal form, cut to a budget. Throws IllTyped where a context has an
   * atom that
   * isn't spelled as the type of its field, NoField and BadWrite where a write is no write.
   */
  update(contexts, writes = {}, { budget, form = FORM_ONE } = {}) {
    const inputs = bytesOfAll(contexts);
    const [lines, numbers] = this.#lines(writes);
    try {
      return contextOf(library.update(checkForm(form), this.#encoded, inputs, lines, checkBudget(budget, form)));
    } catch (error) {
      throw error instanceof NoField || error instanceof BadWrite ? this.#explained(error, lines, numbers, form) : error;
    }
  }

  /** The context with a value written to a field, in normal form. A write adds: of two values of a scalar the least stays. */
  write(context, path, value) {
    return this.update([context], [[path, value]]);
  }

  /**
   * What may leave a trust boundary: of the merge of contexts what stands below the slots of this bag. `others` says what becomes of the rest: 'cut'
   * or 'unsaid'.
   */
  keep(contexts, { others = 'cut', budget, form = FORM_ONE } = {}) {
    if (others !== 'cut' && others !== 'unsaid') throw new RangeError(`others are 'cut' or 'unsaid', not ${shown(others)}`);
    const inputs = bytesOfAll(contexts);
    return contextOf(library.keep(checkForm(form), others === 'cut' ? CUT : UNSAID, this.#encoded, inputs, checkBudget(budget, form)));
  }

  /** What a context says of a field: the value, and whether that is all that was said. Throws NoField, IllTyped and TooLong. */
  read(context, path, { limit = REPORT_LIMIT } = {}) {
    const { text, exact } = this.text(context, path, { limit });
    return Object.freeze({ value: parse(this.#shape(path), text), exact });
  }

  /** What a context says of all fields, by path, in the order of the table. */
  readAll(context, { limit = REPORT_LIMIT } = {}) {
    const lines = this.report(context, { limit }).split('\n').slice(1, -1);
    return new Map(lines.map((line) => {
      const [path, state] = line.split(' ', 2);
      const text = line.slice(path.length + state.length + 2);
      return [path, Object.freeze({ value: parse(this.#shape(path), text), exact: state === 'exact' })];
    }));
  }

  /** What a context says of a field, as the text that a report has. Show people `visible(text)`. */
  text(context, path, { limit = REPORT_LIMIT } = {}) {
    this.#shape(path);
    const { bytes, exact } = library.readField(this.#encoded, bytesOf(context), ascii(path), checkLimit(limit));
    return Object.freeze({ text: toText(bytes), exact });
  }

  /** What a context says of all fields, as `baggage decode` prints it of its bytes in a form. */
  report(context, { form = FORM_ONE, limit = REPORT_LIMIT } = {}) {
    const bytes = bytesOf(context);
    return toText(library.report(this.#encoded, checkForm(form) === FORM_ONE ? bytes : library.join(form, [bytes]), checkLimit(limit)));
  }

  /** The value that the text of a report says of a field. Throws SyntaxError where it is no such text. */
  parse(path, text) {
    return parse(this.#shape(path), text);
  }

  /** The text of a value of a field, as a report has it. */
  format(path, value) {
    return this.#named(path, (shape) => shape.format(value));
  }

  /** The texts of the writes that together say a value of a field. */
  writesOf(path, value) {
    return this.#named(path, (shape) => shape.writes(value));
  }

  #shape(path) {
    return shapeOf(this, path);
  }

  #named(path, made) {
    const shape = this.#shape(path);
    try {
      return made(shape);
    } catch (error) {
      throw error instanceof BadWrite ? new BadWrite(0, error.reason, path) : error;
    }
  }

  /** The texts of a write, with its number where it is none. */
  #texts({ path, value, text }, number) {
    if (text !== undefined && /\p{Surrogate}/u.test(text)) throw new BadWrite(number, 'half a letter', path);
    if (text !== undefined) return [text.includes('\n') ? '' : text];
    try {
      return this.writesOf(path, value);
    } catch (error) {
      if (error instanceof NoField) throw new NoField(number, error.path);
      throw error instanceof BadWrite ? new BadWrite(number, error.reason, path) : error;
    }
  }

  /** The lines of writes and, where they aren't lines already, of each line the number of its write. */
  #lines(writes) {
    if (isBytes(writes)) return [copyOf(writes), undefined];
    if (typeof writes === 'string') {
      const half = writes.search(/\p{Surrogate}/u);
      if (half >= 0) throw new BadWrite(writes.slice(0, half).split('\n').length, 'half a letter');
      return [toBytes(writes), undefined];
    }
    const lines = [];
    const numbers = [];
    let number = 0;
    for (const write of writesOf(writes)) {
      number += 1;
      const path = /[ \n]/.test(write.path) ? '' : write.path;
      for (const text of this.#texts(write, number)) {
        lines.push(`${path} ${text}\n`);
        numbers.push(number);
      }
    }
    return [toBytes(lines.join('')), numbers];
  }

  /** What the library refuses of lines, with the path that stands there, and with what is wrong as far as it can be told. */
  #explained(error, lines, numbers, form) {
    const line = new TextDecoder('utf-8', { ignoreBOM: true }).decode(lines).split('\n')[error.line - 1];
    const [path] = line.split(' ', 1);
    const text = line.slice(path.length + 1);
    const number = numbers ? numbers[error.line - 1] : error.line;
    if (error instanceof NoField) return new NoField(number, path);
    const isLong = toBytes(text).length > LONGEST[form];
    return new BadWrite(number, `no write to ${this.#table.words(path)}${isLong ? `, or longer than ${LONGEST[form]} bytes` : ''}: ${shown(text)}`, path);
  }
}

/** The shape of a field of a bag. */
function shapeOf(bag, path) {
  const { slots } = tableOf(bag);
  if (!slots.has(path)) throw new NoField(0, typeof path === 'string' ? path : shown(path));
  return slots.get(path);
}

/** The numbers of a counter and of the bags on the way to it. Throws NoField, and BadWrite where the field is none. */
export function numbersOfCounter(bag, path) {
  if (!isCounter(shapeOf(bag, path))) throw new BadWrite(0, 'not a counter', path);
  return tableOf(bag).numbers(path);
}

/** The context with a writer's total of a counter. Where somebody wrote what the counter doesn't allow, the total is joined to what is there. */
export function withCount(bag, context, path, writer, total) {
  const alone = bag.only(path);
  const writes = new Writes().text(path, `0x${writer}:${total}`);
  try {
    return alone.update([context], writes);
  } catch (error) {
    if (error instanceof IllTyped) return context.join(alone.update([], writes));
    throw error;
  }
}

/** Whether a value of a field is its bottom, which says nothing. */
export function saysNothing(bag, path, value) {
  const shape = shapeOf(bag, path);
  return shape.format(value) === shape.format(shape.bottom);
}

/** What of a value of a field is within bounds. */
export const within = (bounds, bag, path, value) => shapeOf(bag, path).within(bounds, value, 0)[0];
