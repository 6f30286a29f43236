import type { Bag, Context, Limits } from './index.js';
import type { Visit } from './visit.js';

export interface ServeOptions {
  /** Whether those who send requests are inside; else it is an edge. */
  readonly trusted?: boolean;
  /** What stands for no context, where trusted: LOST unless said. */
  readonly absent?: Context;
  /** What strangers may write, at an edge. */
  readonly bag?: Bag;
  readonly limits?: Limits;
  readonly budget?: number;
  /** Whether our member of `baggage` is read too. */
  readonly member?: boolean;
}

export interface CarryOptions {
  /** The names of hosts that may have contexts. */
  readonly hosts?: Iterable<string> | ((host: string) => boolean);
  /** What a call adds of which nothing came. */
  readonly onFailure?: 'nothing' | 'lost';
  readonly budget?: number;
  /** Whether the context is sent as a member of `baggage` too. */
  readonly member?: boolean;
}

/** A listener of node:http that runs each request in a visit. */
export function serve<Q extends object, S extends object, R>(listener: (request: Q, response: S) => R, options?: ServeOptions): (request: Q, response: S) => R;
/** The same as a middleware of Express and its like. */
export function middleware(options?: ServeOptions): (request: object, response: object, next: (error?: unknown) => void) => void;
/** Makes a call of http.request carry what the visit that runs here holds. */
export function carry<A extends object>(asked: A, options?: CarryOptions & { readonly visit?: Visit }): A;
