import type { CarryOptions, ServeOptions } from './http.js';
import type { Visit } from './visit.js';

/** What is like fetch. */
type Asks = (...words: never[]) => PromiseLike<unknown>;

/** A function like fetch that carries a visit's context. In Node the visit is the one that runs here where no other is said. */
export function carryFetch<F extends Asks = typeof globalThis extends { fetch: infer G extends Asks } ? G : never>(
  options?: CarryOptions & { readonly visit?: Visit | (() => Visit | undefined); readonly fetch?: F },
): F;
/** A handler of requests of fetch, each of which runs in a visit. */
export function serveFetch<Q extends object, S extends object, A extends unknown[]>(
  handler: (request: Q, visit: Visit, ...others: A) => S | PromiseLike<S>,
  options?: ServeOptions & { readonly run?: <R>(visit: Visit, call: () => R) => R },
): (request: Q, ...others: A) => Promise<S>;
