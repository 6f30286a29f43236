// Contexts over fetch, with the visit that runs here.
import * as fetches from './fetch.mjs';
import { here, run } from './request.mjs';

/** carryFetch of fetch.mjs, whose visit is the one that runs here where no other is said. */
export const carryFetch = (options) => fetches.carryFetch({ visit: here, ...options });

/** serveFetch of fetch.mjs, whose handler, and all that it starts, runs in the visit. */
export const serveFetch = (handler, options) => fetches.serveFetch(handler, { run, ...options });
