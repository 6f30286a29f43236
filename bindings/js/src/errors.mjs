// What can be wrong, each with what it is about.

const SHOWN = 80;

// Two halves of a letter beside one another are a letter; either alone is none.
const UNPRINTABLE_OR_PAIR = /[\ud800-\udbff][\udc00-\udfff]|[\0-\x1f\x7f-\x9f\u2028-\u202e\u2066-\u2069\ud800-\udfff]/g;

const escaped = (sign) => {
  const digits = sign.charCodeAt(0).toString(16);
  return sign < '\x80' ? `\\x${digits.padStart(2, '0')}` : `\\u${digits.padStart(4, '0')}`;
};

/** A text as it may be shown to people: what a terminal or a log could obey has an escape in its place, line feeds too. */
export const visible = (text) => text.replace(UNPRINTABLE_OR_PAIR, (it) => (it.length === 1 ? escaped(it) : it));

/** As much of a text as a message shows. */
const shortened = (text) => (text.length <= SHOWN ? text : `${text.slice(0, SHOWN)}..`);

/** What a message shows of a value. */
export function shown(value) {
  if (typeof value === 'string') return shortened(`'${value}'`);
  if (value === null || ['undefined', 'number', 'bigint', 'boolean'].includes(typeof value)) return shortened(String(value));
  return `<${value?.constructor?.name ?? typeof value}>`;
}

/** Anything that the library refuses. */
export class TerncommodeError extends Error {
  constructor(message, fields = {}) {
    super(visible(message));
    this.name = new.target.name;
    Object.assign(this, fields);
  }
}

/** Bytes that are no context's: the input, the offset of the first fault in it, and the fault's name. */
export class Fault extends TerncommodeError {
  constructor(input, offset, code) {
    super(`context ${input}: ${code} at byte ${offset}`, { input, offset, code });
  }
}

/** A context with an atom that isn't spelled as the type of its field says. */
export class IllTyped extends TerncommodeError {
  constructor(input, offset) {
    super(`context ${input}: ill typed at byte ${offset}`, { input, offset });
  }
}

/** A text that isn't that of a table: its first bad line, and the fault's name. */
export class BadTable extends TerncommodeError {
  constructor(line, code) {
    super(`table line ${line}: ${code}`, { line, code });
  }
}

/** A name path that no slot of the bag has. `line` is the number of the write, from 1 on, and 0 outside writes. */
export class NoField extends TerncommodeError {
  constructor(line, path) {
    super(`${line ? `write ${line}: ` : ''}${path === undefined ? 'no such field' : `no field ${shown(path)}`}`, { line, path });
  }
}

/** A value that the field can't hold, or a text that is no write to it. */
export class BadWrite extends TerncommodeError {
  constructor(line, reason, path) {
    super(`${line ? `write ${line}: ` : ''}${path === undefined ? '' : `${shortened(path)}: `}${reason}`, { line, reason, path });
  }
}

/** A text that would be longer than its limit. */
export class TooLong extends TerncommodeError {
  constructor(length, limit) {
    super(`a text of ${length} bytes is longer than its limit of ${limit}`, { length, limit });
  }
}

/** The module has no memory for the call. Nothing was done, and the next call is made as ever. */
export class OutOfMemory extends TerncommodeError {
  constructor() {
    super('out of memory');
  }
}

/** The module stopped within the call, as where its stack ended. Nothing was done, and the next call is made in a new instance. */
export class Stopped extends TerncommodeError {
  constructor(cause) {
    super(`the module stopped: ${cause.message}`, { cause });
  }
}

/** No request runs here: what would be added is never dropped without a word. */
export class NoRequest extends TerncommodeError {
  constructor() {
    super('no request runs here');
  }
}
