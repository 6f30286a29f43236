/** What a scalar is: integers of 64 bits are read as `bigint`, all others as `number`; either is taken in a write where it is the same integer. */
export type Word = boolean | number | bigint | string | Uint8Array;
/** A scalar: one word, or the words of a struct. */
export type Scalar = Word | readonly Word[];
/** A key of a map: bytes are read as hexadecimal digits, and written as these or as a Uint8Array. */
export type Key = boolean | number | bigint | string;

/**
 * What is read of a field, by its shape: a taint is a boolean; a scalar or a greatest is a Scalar, and undefined where it is absent; a set is a
 * Set; a counter is Counts;
 * a map is a Map; a bag inside a map is an object of values by field name.
 */
export type Value = Scalar | undefined | ReadonlySet<Scalar> | Counts | ReadonlyMap<Key, unknown> | { readonly [name: string]: unknown };

/** The counts of a counter by writer: a writer's bytes as hexadecimal digits. */
export class Counts extends Map<string, bigint> {
  /** The sum of all counts. */
  get total(): bigint;
}

/** What a context says of a field. Where it isn't exact, more may have been said. */
export interface Field<V = Value> {
  readonly value: V;
  readonly exact: boolean;
}

export type Form = 1 | 2;
/** A number of bytes. */
export type Budget = number | bigint;

/**
 * What an update writes: values by path, pairs of a path and a value, Writes, or lines `PATH TEXT` as docs/FORMATS.md has them, each with its line
 * feed.
 */
export type AnyWrites = { readonly [path: string]: unknown } | ReadonlyMap<string, unknown> | readonly (readonly [path: string, value: unknown])[] | Writes | string | Uint8Array;

/** A context: what a request carries along. It is always valid and never changes. */
export class Context {
  /** Throws Fault where the bytes are no context's. Without any it is the empty one, with which a request begins. */
  constructor(bytes?: Uint8Array);
  /** The merge of any number of contexts. */
  static join(contexts: Iterable<Context>): Context;
  /** The context of a text as toString and toJSON give it; what can't be read is lost. */
  static from(text: string): Context;
  join(...others: Context[]): Context;
  /** What fits a budget of bytes in a form. A budget below the least one is raised to it. */
  cut(budget: Budget, form?: Form): Context;
  /** A copy of its bytes. */
  bytes(form?: Form): Uint8Array;
  /** How many bytes it has, in form one. */
  readonly length: number;
  /** Whether nothing in it reads as exact. */
  readonly isLost: boolean;
  equals(other: Context): boolean;
  /** The value of a header that carries it. */
  toString(): string;
  toJSON(): string;
  readonly [Symbol.toStringTag]: string;
}

export const EMPTY: Context;
/** The context that was promised and can't be read. */
export const LOST: Context;

/** What an update writes, one write after another. */
export class Writes {
  /** Writes a value, as its field's type has it: a string is quoted, whatever is in it. */
  set(path: string, value: unknown): this;
  /** Writes a text as docs/FORMATS.md has it. It never becomes two writes. */
  text(path: string, text: string): this;
}

export const REPORT_LIMIT: number;

export interface UpdateOptions {
  readonly budget?: Budget;
  /** The form in which the budget holds; in form two a written value may be longer. */
  readonly form?: Form;
}

export interface ReadOptions {
  /** How many bytes the text may have. */
  readonly limit?: number;
}

/** What a service knows: the text of a table, as `baggage table FILE BAG` prints it. */
export class Bag {
  /** Throws BadTable. */
  constructor(table: string);
  readonly table: string;
  readonly slots: string[];
  /** The excerpt with these fields alone. Throws NoField. */
  only(...paths: string[]): Bag;
  /** What this service makes of bytes that came. Throws Fault and IllTyped. */
  receive(bytes: Uint8Array): Context;
  /** One step of this service. Throws IllTyped, NoField and BadWrite. */
  update(contexts: Iterable<Context>, writes?: AnyWrites, options?: UpdateOptions): Context;
  write(context: Context, path: string, value: unknown): Context;
  /** What may leave a trust boundary. */
  keep(contexts: Iterable<Context>, options?: UpdateOptions & { readonly others?: 'cut' | 'unsaid' }): Context;
  /** Throws NoField, IllTyped and TooLong. */
  read<V = Value>(context: Context, path: string, options?: ReadOptions): Field<V>;
  readAll(context: Context, options?: ReadOptions): Map<string, Field>;
  text(context: Context, path: string, options?: ReadOptions): { readonly text: string; readonly exact: boolean };
  report(context: Context, options?: ReadOptions & { readonly form?: Form }): string;
  /** The value that the text of a report says of a field. */
  parse(path: string, text: string): Value;
  /** The text of a value of a field, as a report has it. */
  format(path: string, value: unknown): string;
  /** The texts of the writes that together say a value of a field. */
  writesOf(path: string, value: unknown): string[];
}

/** The literal of a string. */
export function quote(text: string): string;
/** A text as it may be shown to people. */
export function visible(text: string): string;

export class TerncommodeError extends Error {}
export class Fault extends TerncommodeError {
  readonly input: number;
  readonly offset: number;
  readonly code: string;
}
export class IllTyped extends TerncommodeError {
  readonly input: number;
  readonly offset: number;
}
export class BadTable extends TerncommodeError {
  readonly line: number;
  readonly code: string;
}
export class NoField extends TerncommodeError {
  readonly line: number;
  readonly path: string | undefined;
}
export class BadWrite extends TerncommodeError {
  readonly line: number;
  readonly reason: string;
  readonly path: string | undefined;
}
export class TooLong extends TerncommodeError {
  readonly length: number;
  readonly limit: number;
}
export class OutOfMemory extends TerncommodeError {}
export class Stopped extends TerncommodeError {}
export class NoRequest extends TerncommodeError {}

export const HEADER: string;
export const FOR_HEADER: string;
export const GRPC_KEY: string;
export const BAGGAGE: string;
export const REQUEST_BUDGET: number;
export const REPLY_BUDGET: number;
export const GRPC_BUDGET: number;

/** A header's value: a string has a character for each byte. */
export type HeaderValue = string | Uint8Array;
/** Headers that are read: those of fetch, an object or a Map of names to values, or pairs. */
export type AnyHeaders = { get(name: string): string | null } | object | Iterable<readonly [string, HeaderValue | readonly HeaderValue[] | undefined]>;
/** Headers that are set: those of fetch, an object, a Map, or a message of Node. */
export type SetHeaders = { set(name: string, value: string): unknown } | { setHeader(name: string, value: string): unknown } | { [name: string]: unknown };

export function toHeader(context: Context): string;
export function fromHeader(value: HeaderValue): Context;
/** The context that came in headers. `absent` is EMPTY where requests begin, and LOST where a context was promised. */
export function extract(headers: AnyHeaders, absent: Context): Context;
export function inject(headers: SetHeaders, context: Context): void;
/** The context of a reply to the request that was sent with the value `sent`. */
export function extractReply(headers: AnyHeaders, sent: HeaderValue | undefined): Context;
export function injectReply(headers: SetHeaders, context: Context, received: AnyHeaders): void;
export function checkOf(value: HeaderValue): string | undefined;
export function noCache(value?: string): string;
export function toBinary(context: Context): Uint8Array;
export function fromBinary(bytes: Uint8Array): Context;
/** The context that our member of `baggage` carries. */
export function extractMember(headers: AnyHeaders, absent: Context): Context;
/** A value of `baggage` with our member in place of those that are there. */
export function withMember(value: HeaderValue, context: Context, budget?: number): string;
export function withoutOwn(value: HeaderValue): string;

export interface Limits {
  /** Of all values of the header together; where they have more, nothing of them is read. */
  readonly letters?: number;
  readonly parts?: number;
  /** The bytes of a string, of bytes, of a key. */
  readonly text?: number;
  readonly budget?: number;
  /** The request begins here: what isn't whole is left out, and nothing is said of it. */
  readonly dropsPartial?: boolean;
}

/** What a stranger's header may say: the fields of the bag alone, read and written anew. */
export function ingress(values: Iterable<HeaderValue>, bag: Bag, limits?: Limits): Context;
