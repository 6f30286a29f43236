export * from './index.js';

/** Makes all calls go to this module from now on: the compiled `baggage.wasm`. */
export function use(module: object): void;
