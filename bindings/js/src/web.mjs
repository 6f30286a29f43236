// For browsers, their workers, and all that has fetch: the module lies beside the package.
import { use } from './library.mjs';

async function fetched(place) {
  const answer = await fetch(place);
  if (!answer.ok) throw new Error(`${place} can't be had: status ${answer.status}`);
  return WebAssembly.compile(await answer.arrayBuffer());
}

use(await fetched(new URL('../baggage.wasm', import.meta.url)));

export * from './api.mjs';
