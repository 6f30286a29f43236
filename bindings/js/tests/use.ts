// What the declarations accept, and what they refuse: tsc --strict checks it, and nothing runs it.
import { Bag, BadWrite, Context, Counts, EMPTY, extract, extractReply, Field, ingress, inject, LOST, REQUEST_BUDGET, toHeader, Writes } from 'terncommode';
import { add, bound, change, count, current, expect, run, Visit } from 'terncommode/request';
import { carry, middleware, serve } from 'terncommode/http';
import { carryFetch, serveFetch } from 'terncommode/fetch';
import { use } from 'terncommode/bind';

const bag = new Bag('baggage table 1\n0 0 id scalar fixed32\n');
const received: Context = extract({ terncommode: '.AAAAAA' }, LOST);
const said: Context = bag.update([received, EMPTY], { id: 4711, tags: ['spring'] }, { budget: 200, form: 1 });
bag.update([said], new Writes().set('id', 7n).text('tags', '"x"'));
bag.update([said], [['id', 7]]);
bag.update([said], new Map([['id', 7]]));
const id: Field<number | undefined> = bag.read<number | undefined>(said, 'id');
const total: bigint = bag.read<Counts>(said, 'hops').value.total;
const headers: { [name: string]: string } = {};
inject(headers, said.cut(REQUEST_BUDGET));
inject(new Headers(), said);
const reply: Context = extractReply(new Headers(), toHeader(said));
const both: Context = Context.join([said, reply]).join(LOST);
const text: string = JSON.stringify({ both });
ingress(['.AAAAAA'], bag.only('id'), { dropsPartial: true });

const visit = new Visit(both);
const isInTime: boolean = run(visit, (other: Context) => add(other), said);
const later: Promise<boolean> = change(async (before) => before);
const now: boolean = change((before) => bag.update([before], { id: 7 }));
count(bag, 'hops', 2n);
const call: (name: string) => number = bound((name: string) => name.length);
const waits = expect();
waits.began();
waits.came(current());
const listener = serve((request: { url: string }, response: { end(): void }) => response.end(), { trusted: true, absent: LOST });
listener({ url: '/' }, { end() {} });
const layer: (request: object, response: object, next: () => void) => void = middleware({ bag });
carry({ host: 'cart' }, { hosts: ['cart'] });
const asks: typeof fetch = carryFetch({ hosts: (host) => host === 'cart', visit: () => visit });
const serves: (request: Request) => Promise<Response> = serveFetch((request: Request, own) => { own.add(EMPTY); return new Response(request.url); }, { trusted: true });
use(new WebAssembly.Module(new Uint8Array()));
try {
  bag.update([], { id: 'x' });
} catch (error) {
  if (error instanceof BadWrite) console.log(error.line, error.path, error.reason);
}
export { asks, call, id, isInTime, later, layer, now, serves, text, total };

// @ts-expect-error what stands for no context has to be said
extract({});
// @ts-expect-error a budget is a number
said.cut('200');
// @ts-expect-error a context isn't bytes
bag.update([new Uint8Array()]);
// @ts-expect-error a context has no other fields
said.data = 1;
// @ts-expect-error a context doesn't change
said.length = 1;
// @ts-expect-error a form is 1 or 2
said.bytes(3);
// @ts-expect-error trusted is a boolean
serve(() => {}, { trusted: 'yes' });
// @ts-expect-error a step gives a context
change(() => 7);
// @ts-expect-error others are cut or unsaid
bag.keep([said], { others: 'kept' });
