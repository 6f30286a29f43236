// Answers questions about the package, a line each, as bindings/tests/README.md has them: node answers.mjs < QUESTIONS
import { readFileSync } from 'node:fs';
import * as terncommode from '../src/node.mjs';

const { BadTable, BadWrite, Bag, Context, EMPTY, extract, Fault, fromBinary, fromHeader, IllTyped, LOST, NoField, quote, toHeader, Writes } = terncommode;

const bytesOf = (word) => (word === '-' ? new Uint8Array(0) : Uint8Array.from(Buffer.from(word, 'hex')));
const digits = (bytes) => Buffer.from(bytes).toString('hex') || '-';
const contextOf = (word) => new Context(bytesOf(word));
const contextsOf = (words) => words.map(contextOf);
const bagOf = (word) => new Bag(Buffer.from(bytesOf(word)).toString());
const shown = (context) => digits(context.bytes());
const budgetOf = (word) => (word === '-' ? undefined : BigInt(word));

const CALLS = {
  parse: (context) => shown(contextOf(context)),
  bytes: (form, context) => digits(contextOf(context).bytes(Number(form))),
  join: (...words) => shown(Context.join(contextsOf(words))),
  cut: (form, budget, context) => shown(contextOf(context).cut(Number(budget), Number(form))),
  to_header: (context) => toHeader(contextOf(context)),
  from_header: (value) => shown(fromHeader(bytesOf(value))),
  from_binary: (value) => shown(fromBinary(bytesOf(value))),
  extract: (absent, ...words) => shown(extract({ Terncommode: words.map(bytesOf) }, absent === 'empty' ? EMPTY : LOST)),
  only: (table, ...paths) => digits(Buffer.from(bagOf(table).only(...paths).table)),
  receive: (table, bytes) => shown(bagOf(table).receive(bytesOf(bytes))),
  quote: (bytes) => digits(Buffer.from(quote(Buffer.from(bytesOf(bytes)).toString('latin1')), 'latin1')),
  update(table, form, budget, writes, ...words) {
    const bag = bagOf(table);
    return shown(bag.update(contextsOf(words), bytesOf(writes), { budget: budgetOf(budget), form: Number(form) }));
  },
  set: (table, path, text) => shown(bagOf(table).update([], new Writes().text(Buffer.from(bytesOf(path)).toString(), Buffer.from(bytesOf(text)).toString()))),
  keep(table, form, others, budget, ...words) {
    const bag = bagOf(table);
    return shown(bag.keep(contextsOf(words), { others, budget: budgetOf(budget), form: Number(form) }));
  },
  /** The text is made anew from the value. */
  text(table, path, context) {
    const bag = bagOf(table);
    const { value, exact } = bag.read(contextOf(context), path);
    return `${exact ? 'exact' : 'partial'} ${bag.format(path, value)}`;
  },
  report(table, context) {
    const bag = bagOf(table);
    return digits(Buffer.from(bag.report(contextOf(context))));
  },
};

function refusal(error) {
  if (error instanceof Fault) return `! Fault ${error.offset} ${error.code}`;
  if (error instanceof IllTyped) return `! IllTyped ${error.input} ${error.offset}`;
  if (error instanceof BadTable) return `! BadTable ${error.line} ${error.code}`;
  if (error instanceof NoField) return `! NoField ${error.line}`;
  if (error instanceof BadWrite) return `! BadWrite ${error.line}`;
  throw error;
}

function answer(line) {
  const [call, ...words] = line.split(' ');
  if (!(call in CALLS)) return '! Unknown';
  try {
    return CALLS[call](...words);
  } catch (error) {
    return refusal(error);
  }
}

const lines = readFileSync(0, 'utf8').split('\n').slice(0, -1);
process.stdout.write(lines.map((line) => `${answer(line)}\n`).join(''));
