import type { Bag, Context } from './index.js';
import type { Reply, Visit } from './visit.js';

export { NoRequest } from './index.js';
export { Reply, Visit } from './visit.js';

/** Runs a function, and all that it starts, in a visit; in none where it is undefined. */
export function run<A extends unknown[], R>(visit: Visit | undefined, call: (...words: A) => R, ...words: A): R;
/** The visit that runs here; undefined where none does. */
export function here(): Visit | undefined;
/** A function that runs in the visit that runs here now, whoever calls it. */
export function bound<A extends unknown[], R>(call: (...words: A) => R): (...words: A) => R;
/** What the visit that runs here holds; lost where none does. */
export function current(): Context;
export function add(context: Context): boolean;
export function change(step: (context: Context) => Context): boolean;
export function change(step: (context: Context) => PromiseLike<Context>): Promise<boolean>;
export function count(bag: Bag, path: string, more?: number | bigint): boolean;
export function branch(): Visit;
export function expect(): Reply;
export function end(): Context;
