// Prints the report of a recorded graph, going through it step by step with the package: node run_graph.mjs TABLE < GRAPH
//
// It prints what `baggage runtable TABLE` prints, refusals too. docs/FORMATS.md has the lines of graphs, and bindings/tests/README.md says which call stands for
// which line.
import { readFileSync } from 'node:fs';
import { BadWrite, Bag, EMPTY, Fault, IllTyped, NoField, Writes } from '../src/node.mjs';

const NAME = '[A-Za-z_][A-Za-z0-9_]*';
const PATH = `${NAME}(?:\\.${NAME})*`;
const NUMBER = '(?:0|[1-9][0-9]{0,9})';
const FORMS = [
  `(service2?) (${NAME}) (all|none|only(?: ${PATH})+)`,
  `(start) (${NUMBER}) (${NAME})`,
  `(recv) (${NUMBER}) (${NAME}) ([^ ]+)`,
  `(set) (${NUMBER}) (${NUMBER}) (${PATH}) (.+)`,
  `(branch) (${NUMBER}) (${NUMBER})`,
  `(forward) (${NUMBER}) (${NUMBER}) (${NAME})`,
  `(trim) (${NUMBER}) (${NUMBER}) (${NUMBER})`,
  `(join) (${NUMBER}) (${NUMBER}(?: ${NUMBER})*)`,
  `(show) (${NUMBER})`,
].map((form) => new RegExp(`^${form}$`, 's'));
const INPUT_MAX = 16_777_216;
const LINE_MAX = 2_097_152;
const STEPS_MAX = 100_000;
const PARENTS_MAX = 4_096;
const BUDGET_MAX = 4_294_967_295;
const LEAST_BUDGET = { 1: 1, 2: 13 };

/** The code of a line that is bad. */
class Refused extends Error {}

function textOf(line) {
  try {
    return new TextDecoder('utf-8', { fatal: true, ignoreBOM: true }).decode(line);
  } catch {
    throw new Refused('Form');
  }
}

/** The steps so far, each as its service and its context, and those to be shown. */
class Graph {
  services = new Map();
  steps = [];
  shown = [];

  constructor(bag) {
    this.bag = bag;
  }

  /** Goes one line further. */
  add(line) {
    const text = textOf(line);
    const found = FORMS.map((form) => form.exec(text)).find((match) => match !== null);
    if (!found) throw new Refused('Form');
    const [, act, ...words] = found;
    if (act.startsWith('service')) this.service(act, ...words);
    else if (act === 'show') this.shown.push(...this.parents(words).map(() => Number(words[0])));
    else this.step(act, words);
  }

  /** A line that declares a service. */
  service(act, name, view) {
    if (this.services.has(name)) throw new Refused('DuplicateService');
    const [word, ...paths] = view.split(' ');
    try {
      this.services.set(name, { form: act === 'service2' ? 2 : 1, bag: word === 'all' ? this.bag : this.bag.only(...paths) });
    } catch (error) {
      throw error instanceof NoField ? new Refused('NoSuchPath') : error;
    }
  }

  /** The steps with these numbers. */
  parents(numbers) {
    if (numbers.some((number) => Number(number) >= this.steps.length)) throw new Refused('NoSuchStep');
    return numbers.map((number) => this.steps[Number(number)]);
  }

  /** A line that is a step. */
  step(act, [number, ...words]) {
    if (Number(number) !== this.steps.length) throw new Refused('StepNumber');
    const isFirst = act === 'start' || act === 'recv';
    const parents = isFirst ? [] : this.parents(words[0].split(' '));
    const service = this.place(act, words, parents);
    if (act === 'trim' && !(Number(words[1]) >= LEAST_BUDGET[service.form] && Number(words[1]) <= BUDGET_MAX)) throw new Refused('BudgetRange');
    const written = act === 'set' ? this.write(service, words) : new Writes();
    if (this.steps.length >= STEPS_MAX) throw new Refused('TooManySteps');
    if (parents.length > PARENTS_MAX) throw new Refused('TooManyParents');
    this.steps.push({ service, context: this.made(act, words, service, parents.map(({ context }) => context), written) });
  }

  /** The context of a step. */
  made(act, words, service, contexts, written) {
    if (act === 'start') return EMPTY;
    if (act === 'recv') return this.receive(service, words[1]);
    if (act === 'branch') return contexts[0];
    if (act === 'trim') return contexts[0].cut(Number(words[1]), service.form);
    return service.bag.update(contexts, written, { form: service.form });
  }

  /** The service where a step stands. */
  place(act, words, parents) {
    const name = { start: words[0], recv: words[0], forward: words[1] }[act];
    if (name !== undefined && !this.services.has(name)) throw new Refused('NoSuchService');
    if (name !== undefined) return this.services.get(name);
    if (parents.some(({ service }) => service !== parents[0].service)) throw new Refused('WrongService');
    return parents[0].service;
  }

  /** The write of a line, once it is one. */
  write(service, [, path, text]) {
    const writes = new Writes().text(path, text);
    if (!this.bag.slots.includes(path)) throw new Refused('NoSuchPath');
    try {
      service.bag.update([], writes, { form: service.form });
    } catch (error) {
      if (error instanceof NoField) throw new Refused('NotKnown');
      throw error instanceof BadWrite ? new Refused('BadValue') : error;
    }
    return writes;
  }

  /** What comes from outside, which has to be typed under the whole table. */
  receive(service, digits) {
    if (Buffer.byteLength(digits) > LINE_MAX) throw new Refused('HexTooLong');
    if (digits !== '-' && !/^(?:[0-9a-fA-F]{2})+$/.test(digits)) throw new Refused('BadHex');
    const bytes = Uint8Array.from(digits === '-' ? [] : Buffer.from(digits, 'hex'));
    this.bag.receive(bytes);
    return service.bag.receive(bytes);
  }

  /** The blocks of the steps to be shown; the texts are made anew from the values. */
  report() {
    return this.shown.map((number) => {
      const { service, context } = this.steps[number];
      const lines = [...this.bag.readAll(context)].map(([path, { value, exact }]) => `${path} ${exact ? 'exact' : 'partial'} ${this.bag.format(path, value)}\n`);
      return `step ${number}\nbytes ${Buffer.from(context.bytes(service.form)).toString('hex') || '-'}\n${lines.join('')}`;
    }).join('');
  }
}

/** The lines that count, with their numbers. */
function linesOf(source) {
  const lines = [];
  for (let from = 0, number = 1; from <= source.length; number += 1) {
    const feed = source.indexOf(10, from);
    const to = feed < 0 ? source.length : feed;
    const line = source.subarray(from, feed >= 0 && to > from && source[to - 1] === 13 ? to - 1 : to);
    if (line.length > 0 && line[0] !== 0x23) lines.push([number, line]);
    from = to + 1;
  }
  return lines;
}

/** Why there is no report, and the status; undefined where there is one. */
function refusalOf(error, number) {
  if (error instanceof Refused) return [2, `input line ${number} ${error.message}`];
  if (error instanceof Fault) return [3, `context line ${number} offset ${error.offset} ${error.code}`];
  if (error instanceof IllTyped) return [3, `context line ${number} offset ${error.offset} IllTyped`];
  throw error;
}

function main() {
  const graph = new Graph(new Bag(readFileSync(process.argv[2], 'utf8')));
  const source = readFileSync(0);
  if (source.length > INPUT_MAX) return [2, 'input line 0 TooLong'];
  for (const [number, line] of linesOf(source)) {
    try {
      graph.add(line);
    } catch (error) {
      return refusalOf(error, number);
    }
  }
  process.stdout.write(graph.report());
  return undefined;
}

const refusal = main();
if (refusal) {
  process.stderr.write(`${refusal[1]}\n`);
  [process.exitCode] = refusal;
}
