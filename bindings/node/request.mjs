// The holder of a request's context for Node, for all that works on the request, over AsyncLocalStorage. This file is tested, not proved.
//
// A request holds the context of one visit of a service. What it holds only grows, so the order in which callbacks add to it doesn't matter. A branch is
// another request, made by name; nothing becomes one by itself. Worker threads get bytes and give bytes: `worker.postMessage(toHeader(current()))`.
import { AsyncLocalStorage } from 'node:async_hooks';
import { randomBytes } from 'node:crypto';
import { join, lost } from './carriers.mjs';

const running = new AsyncLocalStorage();
const NO_WRITE = '8', ILL_TYPED = '9';

/** No request runs here: what would be added is never dropped without a word. */
export class NoRequest extends Error {
  constructor() {
    super('no request runs here');
    this.name = 'NoRequest';
  }
}

/** A reply that is awaited. Where nothing of it comes it adds nothing; where it began and never comes, the request's context is lost. */
export class Reply {
  #hold;
  #isBegun = false;

  constructor(hold) {
    this.#hold = hold;
  }

  /** A byte of it came, or a message. From now on until it comes the request's context is lost, in what is sent too. It may be called with each message. */
  began() {
    if (this.#isBegun) return;
    this.#isBegun = true;
    this.#hold.wait(1);
  }

  /** It came with this context, which is lost() where it has none, or one that can't be read. Whether the request's own reply could still say it. */
  came(context) {
    const isInTime = this.#hold.add(context);
    if (this.#isBegun) this.#hold.wait(-1);
    this.#isBegun = false;
    return isInTime;
  }

  /** It won't come. What began stays lost. */
  failed() {}
}

/** The context of one visit of a service. */
export class Request {
  #said;
  #changes = 0;
  #coming = 0; // replies that have begun and not come, or never will
  #late = 0;
  #isEnded = false;
  #writer;
  #counted = new Map(); // by the numbers of the counter, which another table may give another name

  /** A request that begins with what came in. */
  constructor(context) {
    this.#said = join([context]);
  }

  /** What is held now, and is sent with each call. It is lost as long as a reply has begun and hasn't come. */
  get context() {
    return join(this.#coming > 0 ? [this.#said, lost()] : [this.#said]);
  }

  /** How often something was added after the end. */
  get late() {
    return this.#late;
  }

  /** Joins a context to what is held; whether the reply could still say it. */
  add(context) {
    this.#said = join([this.#said, context]);
    return this.#changed();
  }

  /**
   * Puts what a step makes of the context in its place; whether the reply could still say it. The step may give a promise, and then so does this. Where others
   * added meanwhile, what it made is joined to theirs. While a reply has begun and hasn't come the step is given the lost context beside, and it stays.
   */
  change(step) {
    const changes = this.#changes;
    const put = (made) => {
      this.#said = join(this.#changes === changes ? [made] : [this.#said, made]);
      return this.#changed();
    };
    const made = step(this.context);
    return typeof made?.then === 'function' ? made.then(put) : put(made);
  }

  /** Counts for a counter of a bag, under the writer of this visit, whose name is drawn with its first count; whether the reply could still say it. */
  count(bag, path, more = 1) {
    const numbers = bag.counter(path);
    const total = this.#total(numbers, more);
    const write = [path, `0x${(this.#writer ??= randomBytes(8)).toString('hex')}:${total}`];
    const written = bag.update([], [write]);
    if (numbers === undefined) throw Object.assign(new Error('no counter'), { code: NO_WRITE }); // a map may take the text as that of an entry
    try {
      this.#said = bag.update([this.#said], [write]);
    } catch (error) {
      if (error.code !== ILL_TYPED) throw error;
      this.#said = join([this.#said, written]); // somebody wrote what the table doesn't allow
    }
    this.#counted.set(numbers, total);
    return this.#changed();
  }

  /** Another request that begins with a copy. It comes back only where somebody adds its context, and counts under a writer of its own. */
  branch() {
    return new Request(this.context);
  }

  /** A reply that is awaited. */
  expect() {
    return new Reply({ add: (context) => this.add(context), wait: (more) => { this.#coming += more; } });
  }

  /** The head of the reply, or in gRPC its trailer, is written: what goes back, which is lost where a reply has begun and not come. What is added later is late. */
  end() {
    this.#isEnded = true;
    return this.context;
  }

  #changed() {
    this.#changes += 1;
    if (this.#isEnded) this.#late += 1;
    return !this.#isEnded;
  }

  #total(numbers, more) {
    const total = (this.#counted.get(numbers) ?? 0n) + BigInt(more);
    if (BigInt(more) < 0n || total >= 2n ** 64n) throw new RangeError('a count is from 0 to 2 ** 64 - 1');
    return total;
  }
}

/** Runs a function, and all that it starts, in a request. */
export const run = (request, call, ...words) => running.run(request, call, ...words);

/** The request that runs here; undefined where none does. */
export const here = () => running.getStore();

/** A function that runs in the request that runs here now, whoever calls it: for emitters, queues and pools. */
export function bound(call) {
  const request = required();
  return (...words) => running.run(request, call, ...words);
}

function required() {
  const request = here();
  if (!request) throw new NoRequest();
  return request;
}

/** What the request that runs here holds; lost where none does. */
export const current = () => here()?.context ?? lost();

// What the request that runs here does; NoRequest is thrown where none does.
export const add = (context) => required().add(context);
export const change = (step) => required().change(step);
export const count = (bag, path, more) => required().count(bag, path, more);
export const branch = () => required().branch();
export const expect = () => required().expect();
export const end = () => required().end();
