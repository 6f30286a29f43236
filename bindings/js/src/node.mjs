// For Node: the module is the file that TERNCOMMODE_MODULE names, or lies beside the package; in a clone of the repository it is that of dist.
import { existsSync, readFileSync } from 'node:fs';
import { use } from './library.mjs';

const beside = new URL('../baggage.wasm', import.meta.url);
const place = process.env.TERNCOMMODE_MODULE || (existsSync(beside) ? beside : new URL('../../../dist/baggage.wasm', import.meta.url));
use(new WebAssembly.Module(readFileSync(place)));

export * from './api.mjs';
