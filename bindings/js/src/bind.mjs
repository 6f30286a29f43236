// For whoever compiles the module by other ways than this package, as workers that are given it: `use(module)` before the first call.
export { use } from './library.mjs';
export * from './api.mjs';
