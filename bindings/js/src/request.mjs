// The visit that runs here, over AsyncLocalStorage: for Node, and for what has its node:async_hooks.
//
// Worker threads get texts and give texts: `worker.postMessage(toHeader(current()))`.
import { AsyncLocalStorage } from 'node:async_hooks';
import { LOST } from './context.mjs';
import { NoRequest, shown } from './errors.mjs';
import { Visit } from './visit.mjs';

export { NoRequest } from './errors.mjs';
export { Reply, Visit } from './visit.mjs';

const running = new AsyncLocalStorage();

/** Runs a function, and all that it starts, in a visit; in none where it is undefined. */
export function run(visit, call, ...words) {
  if (visit !== undefined && !(visit instanceof Visit)) throw new TypeError(`a Visit is run, not ${shown(visit)}`);
  return running.run(visit, call, ...words);
}

/** The visit that runs here; undefined where none does. */
export const here = () => running.getStore();

/** A function that runs in the visit that runs here now, whoever calls it: for emitters, queues and pools. */
export function bound(call) {
  const visit = required();
  return function inVisit(...words) {
    return running.run(visit, () => call.apply(this, words));
  };
}

function required() {
  const visit = here();
  if (!visit) throw new NoRequest();
  return visit;
}

/** What the visit that runs here holds; lost where none does. */
export const current = () => here()?.context ?? LOST;

// What the visit that runs here does; NoRequest is thrown where none does.
export const add = (context) => required().add(context);
export const change = (step) => required().change(step);
export const count = (bag, path, more) => required().count(bag, path, more);
export const branch = () => required().branch();
export const expect = () => required().expect();
export const end = () => required().end();
