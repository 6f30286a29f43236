// Contexts, and the text that carries one.
import { Fault, shown } from './errors.mjs';
import { FORM_ONE, FORM_TWO, join, MARK, NO_BUDGET } from './library.mjs';

const PART = /^([\w-]*)\.([\w-]{6})$/;
const CHUNK = 32_768;
const HEAD = 12; // of form two

const CRC = Uint32Array.from({ length: 256 }, (_, byte) => {
  let rest = byte;
  for (let bit = 0; bit < 8; bit += 1) rest = rest & 1 ? (rest >>> 1) ^ 0xedb88320 : rest >>> 1;
  return rest;
});

/** The CRC-32 of zlib and of Ethernet, as four bytes, most significant first. */
function crc(bytes) {
  let rest = 0xffffffff;
  for (const byte of bytes) rest = (rest >>> 8) ^ CRC[(rest ^ byte) & 0xff];
  return Uint8Array.of(~rest >>> 24, ~rest >>> 16, ~rest >>> 8, ~rest);
}

function toBase64(bytes) {
  let text = '';
  for (let at = 0; at < bytes.length; at += CHUNK) text += String.fromCharCode(...bytes.subarray(at, at + CHUNK));
  return btoa(text).replaceAll('+', '-').replaceAll('/', '_').replaceAll('=', '');
}

/** The bytes that these letters spell; undefined where no bytes are spelled so. */
function fromBase64(letters) {
  if (letters.length % 4 === 1) return undefined;
  const bytes = Uint8Array.from(atob(letters.replaceAll('-', '+').replaceAll('_', '/')), (letter) => letter.charCodeAt(0));
  return toBase64(bytes) === letters ? bytes : undefined;
}

/** The six letters of the bytes' CRC-32. */
export const checkOfBytes = (bytes) => toBase64(crc(bytes));

/** The bytes that a text `DATA.CHECK` carries; undefined where it is no such text, or its check isn't theirs. */
export function bytesOfPart(part) {
  const found = PART.exec(part);
  const bytes = found ? fromBase64(found[1]) : undefined;
  return bytes && checkOfBytes(bytes) === found[2] ? bytes : undefined;
}

/** Whether it is a Uint8Array, of whatever realm. */
export const isBytes = (value) => ArrayBuffer.isView(value) && value[Symbol.toStringTag] === 'Uint8Array';

/** A copy of bytes, which nobody else can write. Throws TypeError where they are none, or were handed to another thread. */
export function copyOf(bytes) {
  if (!isBytes(bytes)) throw new TypeError(`bytes are a Uint8Array, not ${shown(bytes)}`);
  return new Uint8Array(bytes);
}

/** A form, which is 1 or 2. */
export function checkForm(form) {
  if (form !== FORM_ONE && form !== FORM_TWO) throw new RangeError(`a form is 1 or 2, not ${shown(form)}`);
  return form;
}

/** The budget that the library is handed: what is below the least one is raised to it. Without one it is the greatest. */
export function checkBudget(budget, form) {
  if (budget === undefined) return NO_BUDGET;
  if (typeof budget !== 'bigint' && !Number.isInteger(budget) && budget !== Infinity) throw new TypeError(`a budget is a whole number of bytes, not ${shown(budget)}`);
  const least = form === FORM_TWO ? 13n : 1n;
  const whole = budget === Infinity ? NO_BUDGET : BigInt(budget);
  return whole < least ? least : whole > NO_BUDGET ? NO_BUDGET : whole;
}

const isMarked = (bytes) => MARK.every((byte, at) => bytes[at] === byte);

/** The bytes of a context, in either form, in form one. */
const formOne = (bytes) => (isMarked(bytes) ? join(FORM_ONE, [bytes]) : bytes);

let make;
let read;

/** A context: what a request carries along. It is always valid and never changes. */
export class Context {
  #bytes;

  /**
   * The context with these bytes, in either form; without any the empty one, with which a request begins. Throws Fault where they are no context's.
   */
  constructor(bytes = new Uint8Array(0)) {
    const copy = copyOf(bytes);
    this.#bytes = copy.length === 0 ? copy : join(FORM_ONE, [copy]);
    Object.freeze(this);
  }

  static {
    make = (bytes) => {
      const context = new Context();
      context.#bytes = formOne(bytes);
      return context;
    };
    read = (context) => {
      if (typeof context !== 'object' || context === null || !(#bytes in context)) throw new TypeError(`a context is a Context, not ${shown(context)}`);
      return context.#bytes;
    };
  }

  /** The merge of any number of contexts. */
  static join(contexts) {
    return make(join(FORM_ONE, bytesOfAll(contexts)));
  }

  /** The context of a text `DATA.CHECK`, as toString and toJSON give it; what can't be read is lost. */
  static from(text) {
    const bytes = typeof text === 'string' ? bytesOfPart(text) : undefined;
    return bytes ? readOrLost(bytes) : LOST;
  }

  /** The merge with others. */
  join(...others) {
    return Context.join([this, ...others]);
  }

  /** What fits a budget of bytes in a form: a context with more is cut, and reads as partial where something may be missing. */
  cut(budget, form = FORM_ONE) {
    if (budget === undefined) throw new TypeError('a budget is a whole number of bytes, not undefined');
    return make(join(checkForm(form), [this.#bytes], checkBudget(budget, form)));
  }

  /** A copy of its bytes in a form. Form one has no end of its own: send it with a length or a check beside it. */
  bytes(form = FORM_ONE) {
    return checkForm(form) === FORM_ONE ? this.#bytes.slice() : join(FORM_TWO, [this.#bytes]);
  }

  /** How many bytes it has, in form one. */
  get length() {
    return this.#bytes.length;
  }

  /** Whether anything may be missing of any field, as in LOST: nothing in it reads as exact. */
  get isLost() {
    return this.#bytes[isMarked(this.#bytes) ? HEAD : 0] === 0;
  }

  /** Whether both say the same. */
  equals(other) {
    const bytes = read(other);
    return bytes.length === this.#bytes.length && bytes.every((byte, at) => byte === this.#bytes[at]);
  }

  /** The value of a header that carries it: `DATA.CHECK`. */
  toString() {
    return `${toBase64(this.#bytes)}.${checkOfBytes(this.#bytes)}`;
  }

  toJSON() {
    return this.toString();
  }

  /** What consoles show: its length and its check, and nothing of what is in it. */
  [Symbol.for('nodejs.util.inspect.custom')]() {
    return `Context(${this.isLost && this.length === 1 ? 'lost' : `${this.length} bytes, check ${checkOfBytes(this.#bytes)}`})`;
  }

  get [Symbol.toStringTag]() {
    return 'Context';
  }
}

/** The context with these bytes, which are one's, in either form. */
export const contextOf = (bytes) => make(bytes);

/** The bytes of a context, which nobody may change. Throws TypeError where it is none. */
export const bytesOf = (context) => read(context);

/** The bytes of all contexts of a list. */
export function bytesOfAll(contexts) {
  if (typeof contexts?.[Symbol.iterator] !== 'function' || typeof contexts === 'string') throw new TypeError(`contexts are an iterable of Context, not ${shown(contexts)}`);
  return Array.from(contexts, read);
}

/** The empty context, with which a request begins. */
export const EMPTY = new Context();

/** The context that was promised and can't be read: no field of it is exact. */
export const LOST = contextOf(Uint8Array.of(0));

/** The context with these bytes; lost where they are no context's. */
export function readOrLost(bytes) {
  try {
    return new Context(bytes);
  } catch (error) {
    if (error instanceof Fault) return LOST;
    throw error;
  }
}
