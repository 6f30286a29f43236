// The WebAssembly module: how its calls are made, and its refusals as errors.
//
// A call has a frame in the module's memory with its answer, its arguments and its room. The next frame takes the place of the last one and of all
// memory
// that the call took, so nothing is kept there. A memory never shrinks: where a call made it great, the instance is dropped, and the next call has a
// new one.
import { BadTable, BadWrite, Fault, IllTyped, NoField, OutOfMemory, Stopped, TerncommodeError, TooLong } from './errors.mjs';

export const FORM_ONE = 1;
export const FORM_TWO = 2;
export const NO_BUDGET = 2n ** 64n - 1n;
export const MARK = Uint8Array.of(0xff, 0xff, 0xff, 2);

const MAJOR = 2;
const ANSWER = 32;
const SPAN = 16;
const STEP = 16;
const KEPT = 16 * 2 ** 20;
const [OK, FAULT, ROOM, MEMORY, , , TABLE, FIELD, WRITE, TYPE] = Array(10).keys();
const FAULTS = ['CutLength', 'BadCount', 'AtomTooLong', 'LongForm', 'CutBody', 'BadPrefix', 'BadIndex', 'LevelJump', 'OutOfOrder'];
const TABLE_FAULTS = ['Head', 'Form', 'Depth', 'Order', 'DuplicateField', 'TooDeep', 'TooManySlots'];

let compiled;
let running;

/** An instance of a module. */
function instantiated(module) {
  try {
    return new WebAssembly.Instance(module, {}).exports;
  } catch (error) {
    throw error instanceof RangeError ? new OutOfMemory() : error;
  }
}

/** Makes all calls go to this module from now on. */
export function use(module) {
  const exports = instantiated(module);
  const version = exports.baggage_version?.();
  if (Math.floor(version / 10000) !== MAJOR || typeof exports.baggage_frame !== 'function') throw new TypeError(`this is no module of baggage contexts, version ${MAJOR}`);
  compiled = module;
  running = exports;
}

/** How many bytes of memory the module holds between calls. */
export const held = () => running?.memory.buffer.byteLength ?? 0;

function exported() {
  if (!compiled) throw new TypeError("the module isn't loaded: call use(module) of terncommode/bind first");
  running ??= instantiated(compiled);
  return running;
}

/** A place for what a call writes. */
class Room {
  constructor(size) {
    this.size = size;
  }
}

/** What lies in a frame, one part after another, each at an address that 16 divides. */
class Frame {
  #parts = [];
  size = ANSWER;

  /** Where so many bytes lie. */
  #take(size) {
    const at = this.size;
    this.size += Math.ceil(size / STEP) * STEP;
    return at;
  }

  #bytes(bytes) {
    const at = this.#take(bytes.length);
    this.#parts.push((view, base) => new Uint8Array(view.buffer, base + at).set(bytes));
    return at;
  }

  #spans(inputs) {
    const places = inputs.map((bytes) => this.#bytes(bytes));
    const at = this.#take(SPAN * inputs.length);
    this.#parts.push((view, base) => inputs.forEach((bytes, k) => {
      view.setBigUint64(base + at + SPAN * k, BigInt(base + places[k]), true);
      view.setBigUint64(base + at + SPAN * k + 8, BigInt(bytes.length), true);
    }));
    return at;
  }

  /** The arguments that hand a word to the module: of bytes, of inputs and of a room the address and how many there are. */
  place(word) {
    if (ArrayBuffer.isView(word)) return [this.#bytes(word), word.length];
    if (Array.isArray(word)) return [this.#spans(word), word.length];
    return [this.#take(word.size), word.size];
  }

  write(view, base) {
    for (const part of this.#parts) part(view, base);
  }
}

const isPlaced = (word) => typeof word === 'object';

/** The answer's five numbers, and the bytes in the room. */
function made(name, words) {
  const frame = new Frame();
  const placed = words.map((word) => (isPlaced(word) ? frame.place(word) : word));
  const exports = exported();
  const base = Number(exports.baggage_frame(BigInt(frame.size)));
  if (base === 0) throw new OutOfMemory();
  frame.write(new DataView(exports.memory.buffer), base);
  exports[`baggage_${name}`](BigInt(base), ...placed.flatMap((word) => (Array.isArray(word) ? [BigInt(base + word[0]), BigInt(word[1])] : word)));
  const view = new DataView(exports.memory.buffer, base, ANSWER);
  const [context, offset, size] = [8, 16, 24].map((at) => Number(view.getBigUint64(at, true)));
  const answer = { status: view.getUint32(0, true), code: view.getUint32(4, true), context, offset, size };
  if (answer.status === OK && words.at(-1) instanceof Room) answer.bytes = new Uint8Array(exports.memory.buffer, base + placed.at(-1)[0], size).slice();
  return answer;
}

/** The answer of a call. Whatever breaks it takes the instance along. */
function answered(name, words) {
  let answer;
  try {
    answer = made(name, words);
  } catch (error) {
    running = undefined;
    if (error instanceof WebAssembly.RuntimeError) throw new Stopped(error);
    throw error;
  }
  if (held() > KEPT) running = undefined;
  return answer;
}

function refusal({ status, code, context, offset }) {
  if (status === FAULT) return new Fault(context, offset, FAULTS[code - 1]);
  if (status === TYPE) return new IllTyped(context, offset);
  if (status === TABLE) return new BadTable(offset, TABLE_FAULTS[code - 1]);
  if (status === FIELD) return new NoField(offset);
  if (status === WRITE) return new BadWrite(offset, 'no write');
  return status === MEMORY ? new OutOfMemory() : new TerncommodeError(`the library answers ${status}`);
}

/** What a call writes, of no more bytes than a limit. The first room is a guess; where it is too short, the second one suffices. */
function written(name, words, guess, limit = Infinity) {
  let answer = answered(name, [...words, new Room(Math.min(guess, limit))]);
  if (answer.status === ROOM && answer.size > limit) throw new TooLong(answer.size, limit);
  if (answer.status === ROOM) answer = answered(name, [...words, new Room(answer.size)]);
  if (answer.status !== OK) throw refusal(answer);
  return answer;
}

const total = (inputs) => inputs.reduce((sum, bytes) => sum + bytes.length, 0);

export const join = (form, inputs, budget = NO_BUDGET) => written('join', [form, inputs, budget], total(inputs) + 12).bytes;

export const update = (form, table, inputs, writes, budget = NO_BUDGET) =>
  written('update', [form, table, inputs, writes, budget], total(inputs) + 2 * writes.length + 256).bytes;

export const keep = (form, others, table, inputs, budget = NO_BUDGET) => written('keep', [form, others, table, inputs, budget], total(inputs) + 256).bytes;

/** The text of a report, of no more bytes than a limit. */
export const report = (table, context, limit) => written('report', [1, table, context], 8 * context.length + 8 * table.length + 256, limit).bytes;

/** The text of a field, and whether it is exact. */
export function readField(table, context, path, limit) {
  const { bytes, code } = written('read_field', [table, context, path], 4 * context.length + 256, limit);
  return { bytes, exact: code === 1 };
}

export function checkTable(table) {
  const answer = answered('check_table', [table]);
  if (answer.status !== OK) throw refusal(answer);
}
