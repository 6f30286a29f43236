// The context of one visit of a service, for all that works on it. docs/LIBRARY.md has the rules; where JavaScript runs as one thread it needs no
// lock.
//
// What a visit holds only grows, so the order in which callbacks add to it doesn't matter. A branch is another visit, made by name; nothing becomes
// one by itself.
import { numbersOfCounter, withCount } from './bag.mjs';
import { bytesOf, EMPTY, LOST } from './context.mjs';
import { BadWrite, shown } from './errors.mjs';

const MOST = 2n ** 64n;

// Node 18 has it in a module alone.
const random = globalThis.crypto ?? (await import('node:crypto')).webcrypto;

/** Eight random bytes, as hexadecimal digits. */
const drawn = () => Array.from(random.getRandomValues(new Uint8Array(8)), (byte) => byte.toString(16).padStart(2, '0')).join('');

/** A reply that is awaited. Where nothing of it comes it adds nothing; where it began and never comes, the visit's context is lost. */
export class Reply {
  #hold;
  #isBegun = false;
  #isSettled = false;

  constructor(hold) {
    this.#hold = hold;
  }

  /**
   * A byte of it came, or a message. From now on until it comes the visit's context is lost, in what is sent too. It may be called with each
   * message.
   */
  began() {
    if (this.#isBegun || this.#isSettled) return;
    this.#isBegun = true;
    this.#hold.wait(1);
  }

  /** It came with this context, which is LOST where it has none, or one that can't be read. Whether the visit's own reply could still say it. */
  came(context) {
    const isInTime = this.#hold.add(context);
    this.#settle();
    return isInTime;
  }

  /** It won't come. What began stays lost. */
  failed() {
    if (this.#isBegun && !this.#isSettled) this.#hold.lose();
    this.#settle();
  }

  #settle() {
    if (this.#isBegun && !this.#isSettled) this.#hold.wait(-1);
    this.#isSettled = true;
  }
}

/** The context of one visit of a service. */
export class Visit {
  #said;
  #changes = 0;
  #coming = 0; // replies that have begun and not come
  #late = 0;
  #isEnded = false;
  #writer;
  #counted = new Map(); // by the numbers of a counter's path

  /** A visit that begins with what came in. */
  constructor(context = EMPTY) {
    bytesOf(context);
    this.#said = context;
  }

  /** What is held now, and is sent with each call. It is lost as long as a reply has begun and hasn't come. */
  get context() {
    return this.#coming > 0 ? this.#said.join(LOST) : this.#said;
  }

  /** How often something was added after the end. */
  get late() {
    return this.#late;
  }

  /** Joins a context to what is held; whether the reply could still say it. */
  add(context) {
    return this.#put(this.#said.join(context));
  }

  /**
   * Puts what a step makes of the context in its place; whether the reply could still say it. The step may give a promise, and then so does this.
   * Where others
   * added meanwhile, what it made is joined to theirs. While a reply has begun and hasn't come the step is given the lost context beside, and it
   * stays.
   */
  change(step) {
    const changes = this.#changes;
    const put = (made) => {
      bytesOf(made);
      return this.#put(this.#changes === changes ? made : this.#said.join(made));
    };
    const made = step(this.context);
    return typeof made?.then === 'function' ? Promise.resolve(made).then(put) : put(made);
  }

  /**
   * Counts for a counter of a bag, under the writer of this visit, whose name is drawn with its first count; whether the reply could still say it.
   * A counter is what
   * stands at its path's numbers: one that has two names, or is in two tables, has one count of this visit.
   */
  count(bag, path, more = 1) {
    const numbers = numbersOfCounter(bag, path);
    if (typeof more !== 'bigint' && !Number.isSafeInteger(more)) throw new BadWrite(0, `not a number to count: ${shown(more)}`, path);
    const total = (this.#counted.get(numbers) ?? 0n) + BigInt(more);
    if (BigInt(more) < 0n || total >= MOST) throw new BadWrite(0, `a count is from 0 to 2 ** 64 - 1, not ${shown(total)}`, path);
    this.#writer ??= drawn();
    const said = withCount(bag, this.#said, path, this.#writer, total);
    this.#counted.set(numbers, total);
    return this.#put(said);
  }

  /** Another visit that begins with a copy. It comes back only where somebody adds its context, and counts under a writer of its own. */
  branch() {
    return new Visit(this.context);
  }

  /** A reply that is awaited. */
  expect() {
    return new Reply({
      add: (context) => this.add(context),
      wait: (more) => { this.#coming += more; },
      lose: () => { this.#said = this.#said.join(LOST); this.#changes += 1; },
    });
  }

  /**
   * The head of the reply, or in gRPC its trailer, is written: what goes back, which is lost where a reply has begun and not come. What is added
   * later is late.
   */
  end() {
    this.#isEnded = true;
    return this.context;
  }

  #put(said) {
    this.#said = said;
    this.#changes += 1;
    if (this.#isEnded) this.#late += 1;
    return !this.#isEnded;
  }
}
