// Values and their texts: what a table's text says of a field, read and written as JavaScript's own types. types/index.d.ts has the types of each
// shape.
//
// Three texts belong to a value: that of a report, which says the whole value, and the texts of the writes that say it, each of which says one part.
// docs/FORMATS.md has both, in its sections on texts of values and on writes.
import { BadWrite, shown } from './errors.mjs';
import { isBytes } from './context.mjs';

const signed = (bits) => [-(2n ** BigInt(bits - 1)), 2n ** BigInt(bits - 1)];
const unsigned = (bits) => [0n, 2n ** BigInt(bits)];
const INTEGERS = {
  int32: signed(32), int64: signed(64), sint32: signed(32), sint64: signed(64), uint32: unsigned(32),
  uint64: unsigned(64), fixed32: unsigned(32), fixed64: unsigned(64), sfixed32: signed(32), sfixed64: signed(64),
};
const MOST = 2n ** 64n;

const wrong = (value, wanted) => new BadWrite(0, `not ${wanted}: ${shown(value)}`);

/** A text that is taken from its front. */
class Text {
  at = 0;

  constructor(text) {
    this.text = text;
  }

  /** What a pattern takes. The pattern is sticky. */
  take(pattern) {
    pattern.lastIndex = this.at;
    const found = pattern.exec(this.text);
    if (!found) throw this.refused();
    this.at = pattern.lastIndex;
    return found;
  }

  /** Whether the sign comes next, which then is passed over. */
  skip(sign) {
    const isNext = this.text.startsWith(sign, this.at);
    if (isNext) this.at += sign.length;
    return isNext;
  }

  expect(sign) {
    if (!this.skip(sign)) throw this.refused();
  }

  /** What is read of each element of a list. */
  listed(opening, closing, read) {
    const found = [];
    this.expect(opening);
    if (this.skip(closing)) return found;
    do found.push(read(found.length)); while (this.skip(','));
    this.expect(closing);
    return found;
  }

  refused() {
    return new SyntaxError(`not the text of a value, at ${shown(this.text.slice(this.at, this.at + 40))}`);
  }
}

// Each shape has a bottom, which says nothing, and four methods: `parse` reads the text of a report, `format` writes it, `writes` gives the texts of
// the writes that say
// a value, and `within` what of a value is within bounds, and how many writes say that, after so many letters of keys and names.

/** The literal of a string. */
export function quote(text) {
  if (typeof text !== 'string') throw new TypeError(`a string is quoted, not ${shown(text)}`);
  if (/\p{Surrogate}/u.test(text)) throw new BadWrite(0, `a string with half a letter: ${shown(text)}`);
  return `"${text.replace(/["\\]/g, '\\$&').replace(/[\0-\x1f\x7f]/g, (it) => `\\x${it.charCodeAt(0).toString(16).padStart(2, '0')}`)}"`;
}

const unquoted = (body) => body.replace(/\\(?:(["\\])|x(..))/g, (_, sign, digits) => sign ?? String.fromCharCode(parseInt(digits, 16)));

const digitsOf = (bytes) => Array.from(bytes, (byte) => byte.toString(16).padStart(2, '0')).join('');

const bytesOfDigits = (digits) => Uint8Array.from({ length: digits.length / 2 }, (_, at) => parseInt(digits.slice(2 * at, 2 * at + 2), 16));

/** An integer that a value says; undefined where it says none exactly. */
function integer(value) {
  if (typeof value === 'bigint') return value;
  return Number.isSafeInteger(value) ? BigInt(value) : undefined;
}

/** A scalar of one word. */
class Word {
  constructor(word) {
    this.word = word;
  }

  parse(text) {
    if (this.word === 'bool') return text.take(/true|false/y)[0] === 'true';
    if (this.word === 'string') return unquoted(text.take(/"([^"\\]*(?:\\(?:["\\]|x[0-9a-f]{2})[^"\\]*)*)"/y)[1]);
    if (this.word === 'bytes') return bytesOfDigits(text.take(/0x((?:[0-9a-f]{2})*)/y)[1]);
    const digits = text.take(/-?[0-9]{1,20}/y)[0];
    return this.word.endsWith('64') ? BigInt(digits) : Number(digits);
  }

  format(value) {
    if (this.word === 'bool') {
      if (typeof value !== 'boolean') throw wrong(value, 'a boolean');
      return String(value);
    }
    if (this.word === 'string') {
      if (typeof value !== 'string') throw wrong(value, 'a string');
      return quote(value);
    }
    if (this.word === 'bytes') {
      if (!isBytes(value)) throw wrong(value, 'a Uint8Array');
      return `0x${digitsOf(value)}`;
    }
    return this.#integer(value);
  }

  #integer(value) {
    const [low, high] = INTEGERS[this.word];
    const number = integer(value);
    if (number === undefined || number < low || number >= high) throw wrong(value, `an integer from ${low} to ${high - 1n}`);
    return String(number);
  }

  /** What a value is as a key of a map: bytes are hexadecimal digits, since two arrays are never equal. */
  parseKey(text) {
    const key = this.parse(text);
    return this.word === 'bytes' ? digitsOf(key) : key;
  }

  formatKey(key) {
    if (this.word !== 'bytes' || typeof key !== 'string') return this.format(key);
    if (!/^(?:[0-9a-f]{2})*$/.test(key)) throw wrong(key, 'a Uint8Array, or hexadecimal digits in lower case');
    return `0x${key}`;
  }
}

/** A scalar of several words. */
class Struct {
  constructor(words) {
    this.words = words.map((word) => new Word(word));
  }

  parse(text) {
    const values = text.listed('(', ')', (at) => (this.words[at] ? this.words[at].parse(text) : text.expect(')')));
    if (values.length < this.words.length) throw text.refused();
    return values;
  }

  format(value) {
    if (!Array.isArray(value) || value.length !== this.words.length) throw wrong(value, `an array of ${this.words.length}`);
    return `(${this.words.map((word, at) => word.format(value[at])).join(',')})`;
  }
}

class Taint {
  bottom = false;

  parse(text) {
    return text.take(/on|off/y)[0] === 'on';
  }

  format(value) {
    if (typeof value !== 'boolean') throw wrong(value, 'a boolean');
    return value ? 'on' : 'off';
  }

  writes(value) {
    return this.format(value) === 'on' ? ['on'] : [];
  }

  within(bounds, value, used) {
    const isIn = value && bounds.has('on', used);
    return [isIn, Number(isIn)];
  }
}

class Scalar {
  bottom = undefined;

  constructor(kind) {
    this.kind = kind;
  }

  parse(text) {
    const isAbsent = /-(?![0-9])/y; // a negative number begins with the sign, too
    isAbsent.lastIndex = text.at;
    return isAbsent.test(text.text) ? void text.expect('-') : this.kind.parse(text);
  }

  format(value) {
    return value === undefined ? '-' : this.kind.format(value);
  }

  writes(value) {
    return value === undefined ? [] : [this.kind.format(value)];
  }

  within(bounds, value, used) {
    const isIn = value !== undefined && bounds.has(this.kind.format(value), used);
    return [isIn ? value : undefined, Number(isIn)];
  }
}

/** What is compared in place of a value: integers as bigint, of whatever type they are, and strings as bytes. */
function comparable(value) {
  if (Array.isArray(value)) return value.map(comparable);
  return typeof value === 'string' ? new TextEncoder().encode(value) : integer(value) ?? value;
}

/** The order of the formats, of two that are comparable: numbers as numbers, bytes and structs part by part. */
function order(first, second) {
  if (typeof first !== 'object') return first < second ? -1 : Number(first > second);
  const most = Math.min(first.length, second.length);
  for (let at = 0; at < most; at += 1) {
    const found = order(first[at], second[at]);
    if (found !== 0) return found;
  }
  return first.length - second.length;
}

/** Pairs of a literal and what is compared, each literal once, in order. */
const sorted = (pairs) => [...new Map(pairs)].sort(([, first], [, second]) => order(first, second));

class SetOf {
  constructor(kind) {
    this.kind = kind;
  }

  get bottom() {
    return new Set();
  }

  parse(text) {
    return new Set(text.listed('{', '}', () => this.kind.parse(text)));
  }

  format(value) {
    return `{${this.writes(value).join(',')}}`;
  }

  writes(value) {
    if (!(value instanceof Set) && !Array.isArray(value)) throw wrong(value, 'a Set or an array');
    return sorted(Array.from(value, (it) => [this.kind.format(it), comparable(it)])).map(([text]) => text);
  }

  within(bounds, value, used) {
    const kept = new Set([...value].filter((it) => bounds.has(this.kind.format(it), used)));
    return [kept, kept.size];
  }
}

/** The entries of which anything is within bounds, with the number of writes that say them. `within` says it of what stands at a key. */
function entriesWithin(bounds, entries, used, literalOf, within) {
  const kept = [];
  let writes = 0;
  for (const [key, value] of entries) {
    const [inner, count] = within(value, bounds.below(literalOf(key), used));
    if (count > 0) kept.push([key, inner]);
    else bounds.drop();
    writes += count;
  }
  return [kept, writes];
}

/** The entries of a Map, or of an array of pairs. */
function entriesOf(value, wanted) {
  if (!(value instanceof Map) && !(Array.isArray(value) && value.every((pair) => Array.isArray(pair) && pair.length === 2))) throw wrong(value, wanted);
  return [...value];
}

/** The counts of a counter by writer: a Map from a writer's bytes, as hexadecimal digits, to its count. */
export class Counts extends Map {
  /** The sum of all counts. */
  get total() {
    return [...this.values()].reduce((sum, count) => sum + count, 0n);
  }
}

const WRITER = new Word('bytes');

class Counter {
  get bottom() {
    return new Counts();
  }

  parse(text) {
    text.take(/[0-9]+/y);
    return new Counts(text.listed('{', '}', () => {
      const writer = WRITER.parseKey(text);
      text.expect(':');
      return [writer, BigInt(text.take(/[0-9]{1,20}/y)[0])];
    }));
  }

  format(value) {
    const counts = this.#counts(value);
    return `${counts.reduce((sum, [, count]) => sum + count, 0n)}{${this.writes(value).join(',')}}`;
  }

  writes(value) {
    return this.#counts(value).map(([writer, count]) => `${writer}:${count}`);
  }

  /** The literals of writers with their counts, in their order; of a writer that is there twice the greater count. */
  #counts(value) {
    const counts = new Map();
    for (const [writer, given] of entriesOf(value, 'a Map of counts by writer')) {
      const count = integer(given);
      if (count === undefined || count < 0n || count >= MOST) throw wrong(given, 'a count of 64 bits');
      const literal = WRITER.formatKey(writer);
      counts.set(literal, counts.get(literal) > count ? counts.get(literal) : count);
    }
    return [...counts].sort(([first], [second]) => (first < second ? -1 : Number(first > second)));
  }

  within(bounds, value, used) {
    const [kept, writes] = entriesWithin(bounds, value, used, (writer) => WRITER.formatKey(writer), (count, below) => [count, Number(bounds.has(String(count), below))]);
    return [new Counts(kept), writes];
  }
}

class MapOf {
  constructor(key, shape) {
    this.key = new Word(key);
    this.shape = shape;
  }

  get bottom() {
    return new Map();
  }

  parse(text) {
    return new Map(text.listed('{', '}', () => {
      const key = this.key.parseKey(text);
      text.expect(':');
      return [key, this.shape.parse(text)];
    }));
  }

  format(value) {
    return `{${this.#entries(value).map(([key, inner]) => `${key}:${this.shape.format(inner)}`).join(',')}}`;
  }

  writes(value) {
    return this.#entries(value).flatMap(([key, inner]) => {
      const texts = this.shape.writes(inner);
      if (texts.length === 0) throw new BadWrite(0, `no write says a key without a value, as ${shown(key)} is here`);
      return texts.map((text) => `${key}:${text}`);
    });
  }

  /** The literals of the keys with their values, in the order of the keys. */
  #entries(value) {
    const entries = entriesOf(value, 'a Map of values by key').map(([key, inner]) => [this.key.formatKey(key), { key: comparable(key), inner }]);
    return [...new Map(entries)].sort(([, first], [, second]) => order(first.key, second.key)).map(([text, { inner }]) => [text, inner]);
  }

  within(bounds, value, used) {
    const [kept, writes] = entriesWithin(bounds, value, used, (key) => this.key.formatKey(key), (inner, below) => this.shape.within(bounds, inner, below));
    return [new Map(kept), writes];
  }
}

/** A bag inside a map: its fields by name, in the order of their numbers. */
class BagOf {
  fields = new Map();

  get bottom() {
    return Object.fromEntries([...this.fields].map(([name, shape]) => [name, shape.bottom]));
  }

  parse(text) {
    const shapes = [...this.fields];
    const entries = text.listed('[', ']', (at) => {
      if (at >= shapes.length) throw text.refused();
      const [name, shape] = shapes[at];
      text.expect(`${name}=`);
      return [name, shape.parse(text)];
    });
    if (entries.length < shapes.length) throw text.refused();
    return Object.fromEntries(entries);
  }

  format(value) {
    const inner = this.#inner(value);
    return `[${[...this.fields].map(([name, shape]) => `${name}=${shape.format(inner.has(name) ? inner.get(name) : shape.bottom)}`).join(',')}]`;
  }

  writes(value) {
    const inner = this.#inner(value);
    return [...this.fields].filter(([name]) => inner.has(name)).flatMap(([name, shape]) => shape.writes(inner.get(name)).map((text) => `.${name}=${text}`));
  }

  within(bounds, value, used) {
    const parts = [...this.fields].map(([name, shape]) => [name, shape.within(bounds, value[name], used + name.length + 2)]);
    return [Object.fromEntries(parts.map(([name, [kept]]) => [name, kept])), parts.reduce((sum, [, [, count]]) => sum + count, 0)];
  }

  #inner(value) {
    const isOther = typeof value !== 'object' || value === null || [Array, Map, Set].some((type) => value instanceof type) || isBytes(value);
    if (isOther) throw wrong(value, 'an object of values by field name');
    const entries = Object.entries(value);
    const other = entries.find(([name]) => !this.fields.has(name));
    if (other) throw new BadWrite(0, `the bag has no field ${shown(other[0])}`);
    return new Map(entries);
  }
}

const kindOf = (word) => (word.startsWith('(') ? new Struct(word.slice(1, -1).split(',')) : new Word(word));

/** The shape that the words of a table's line say, and the bag in it whose fields the next lines say. */
function shapeOf([word, ...rest]) {
  if (word === 'map') {
    const [inner, bag] = shapeOf(rest.slice(1));
    return [new MapOf(rest[0], inner), bag];
  }
  if (word === 'bag') {
    const bag = new BagOf();
    return [bag, bag];
  }
  if (word === 'taint') return [new Taint(), undefined];
  if (word === 'counter') return [new Counter(), undefined];
  return [word === 'set' ? new SetOf(kindOf(rest[0])) : new Scalar(kindOf(rest[0])), undefined];
}

/** What the text of a table says, which is one that the library accepts. */
export class Table {
  /** The fields that are reached through bags, by name path. */
  fields = new Map();
  /** Of these the slots: their shapes. */
  slots = new Map();

  constructor(text) {
    this.lines = text.split('\n').slice(0, -1);
    // Of each open bag: its shape, its path (undefined inside a map), and the field that is it.
    const open = [{ bag: new BagOf(), path: '', numbers: '' }];
    const way = [];
    for (let at = 1; at < this.lines.length; at += 1) this.#line(at, open, way);
  }

  #line(at, open, way) {
    const [depthText, number, name, ...words] = this.lines[at].split(' ');
    const depth = Number(depthText);
    open.length = depth + 1;
    way.length = Math.min(way.length, depth);
    const { bag, path, numbers } = open[depth];
    const [shape, inner] = shapeOf(words);
    bag.fields.set(name, shape);
    for (const field of way) field.last = at;
    const here = path === undefined ? undefined : path ? `${path}.${name}` : name;
    const field = { way: way.map(({ first }) => first), first: at, last: at, numbers: numbers ? `${numbers}.${number}` : number, shape };
    if (here !== undefined) {
      this.fields.set(here, field);
      way.push(field);
      if (shape !== inner) this.slots.set(here, shape);
    }
    if (inner) open.push({ bag: inner, path: shape === inner ? here : undefined, numbers: field.numbers });
  }

  /** The type of a field, as the table says it. */
  words(path) {
    return this.lines[this.fields.get(path).first].split(' ').slice(3).join(' ');
  }

  /** The numbers of a field and of the bags on the way to it: what stands for it in bytes, whatever its name. */
  numbers(path) {
    return this.fields.get(path).numbers;
  }

  /** The text of the table with the fields at these paths alone, and with the bags on the way to them. */
  excerpt(paths) {
    const kept = new Set([0]);
    for (const path of paths) {
      const { way, first, last } = this.fields.get(path);
      for (const at of way) kept.add(at);
      for (let at = first; at <= last; at += 1) kept.add(at);
    }
    return this.lines.filter((_, at) => kept.has(at)).map((line) => `${line}\n`).join('');
  }
}

/** Whether a shape is a counter's. */
export const isCounter = (shape) => shape instanceof Counter;

/** The value that a whole text says. */
export function parse(shape, text) {
  if (typeof text !== 'string') throw new TypeError(`the text of a value is a string, not ${shown(text)}`);
  const rest = new Text(text);
  const value = shape.parse(rest);
  if (rest.at !== text.length) throw rest.refused();
  return value;
}
