export { Context, EMPTY, LOST } from './context.mjs';
export { Bag, REPORT_LIMIT, Writes } from './bag.mjs';
export { Counts, quote } from './values.mjs';
export { BadTable, BadWrite, Fault, IllTyped, NoField, NoRequest, OutOfMemory, Stopped, TerncommodeError, TooLong, visible } from './errors.mjs';
export {
  BAGGAGE, checkOf, extract, extractMember, extractReply, FOR_HEADER, fromBinary, fromHeader, GRPC_BUDGET, GRPC_KEY, HEADER, inject, injectReply, noCache, REPLY_BUDGET,
  REQUEST_BUDGET, toBinary, toHeader, withMember, withoutOwn,
} from './carriers.mjs';
export { ingress } from './ingress.mjs';
