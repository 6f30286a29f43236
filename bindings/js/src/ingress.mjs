// What strangers may write: the one way in at an edge.
import { saysNothing, within } from './bag.mjs';
import { bytesOfPart, Context, EMPTY, LOST, readOrLost } from './context.mjs';
import { IllTyped, shown, TooLong } from './errors.mjs';
import { REQUEST_BUDGET, textOf, trimmed } from './carriers.mjs';

/** What is let in at most, where the caller has no other limits. */
const LIMITS = { letters: 8192, parts: 16, text: 1024, budget: REQUEST_BUDGET, dropsPartial: false };
const LONGEST_BOTTOM = 3;

function checkedLimits(limits) {
  const all = { ...LIMITS, ...limits };
  for (const [name, limit] of Object.entries(all)) {
    const isRight = name === 'dropsPartial' ? typeof limit === 'boolean' : Number.isSafeInteger(limit) && limit >= 0;
    if (!Object.hasOwn(LIMITS, name) || !isRight) throw new TypeError(`no limit is ${name}: ${shown(limit)}`);
  }
  return all;
}

const sizeOf = (text) => new TextEncoder().encode(text).length;

/** The bounds of one field's literals, and whether all that came is within them. */
class Bounds {
  isWhole = true;

  constructor({ letters, text }) {
    this.letters = letters;
    this.text = Math.min(text, letters);
  }

  drop() {
    this.isWhole = false;
  }

  /** Whether a literal is within them that stands after so many letters of keys and names. */
  has(literal, used) {
    const isIn = sizeOf(literal) <= this.text && used <= this.letters;
    if (!isIn) this.drop();
    return isIn;
  }

  /** How many letters stand before what is at a key. */
  below(literal, used) {
    return sizeOf(literal) > this.text ? Infinity : used + sizeOf(literal) + 1;
  }
}

/**
 * The merge of the parts that can be read, within the limits; lost where that isn't all. A part that says that something was lost is a context, too.
 */
function arrived(values, { letters, parts: most }) {
  const parts = values.flatMap((value) => value.split(',').map(trimmed));
  const isShort = values.reduce((sum, value) => sum + value.length, 0) <= letters;
  const read = isShort ? parts.slice(0, most).map(bytesOfPart) : [];
  const contexts = read.map((bytes) => (bytes ? readOrLost(bytes) : LOST));
  const isWhole = isShort && parts.length <= most && contexts.every((context, at) => context !== LOST || (read[at]?.length === 1 && read[at][0] === 0));
  return { came: Context.join(isWhole ? contexts : [...contexts, LOST]), isWhole };
}

/** What a context says of a field; undefined where that is ill typed, or too long to be read. */
function readOf(alone, path, came, { letters }) {
  try {
    return alone.read(came, path, { limit: Math.max(4 * letters, LONGEST_BOTTOM) });
  } catch (error) {
    if (error instanceof IllTyped || error instanceof TooLong) return undefined;
    throw error;
  }
}

/** What is inside with one field of what came, written anew, and whether all of it is in. */
function withField(alone, path, inside, came, limits) {
  const field = readOf(alone, path, came, limits);
  if (field && saysNothing(alone, path, field.value)) return { inside, isIn: true };
  if (!field || (limits.dropsPartial && !field.exact)) return { inside, isIn: false };
  const bounds = new Bounds(limits);
  const kept = within(bounds, alone, path, field.value);
  return { inside: alone.update([inside], [[path, kept]]), isIn: bounds.isWhole };
}

/** Whether what came is what is inside, and no more, in normal form for the bag. */
function isAll(bag, came, inside) {
  try {
    return bag.update([came]).equals(inside);
  } catch (error) {
    if (error instanceof IllTyped) return false;
    throw error;
  }
}

/**
 * What a stranger's header may say: the fields of the bag alone, read and written anew, so that neither marks nor bytes that no table names come
 * along. What was lost,
 * ill typed or beyond a limit stays outside. Then every field is partial, unless `dropsPartial` is set: the request begins here, what isn't whole
 * is left out, and nothing is said
 * of it. It never fails by what came.
 */
export function ingress(values, bag, limits = {}) {
  const all = checkedLimits(limits);
  const { came, isWhole } = arrived([...values].map(textOf), all);
  let inside = EMPTY;
  let isIn = isWhole;
  for (const path of bag.slots) {
    const found = withField(bag.only(path), path, inside, came, all);
    isIn &&= found.isIn;
    if (!all.dropsPartial || (found.isIn && found.inside.length <= all.budget)) inside = found.inside;
  }
  if (!all.dropsPartial && !(isIn && isAll(bag, came, inside))) inside = inside.join(LOST);
  return inside.cut(all.budget);
}
