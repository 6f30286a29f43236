import type { Bag, Context } from './index.js';

/** A reply that is awaited. Where nothing of it comes it adds nothing; where it began and never comes, the visit's context is lost. */
export class Reply {
  private constructor();
  began(): void;
  /** Whether the visit's own reply could still say it. */
  came(context: Context): boolean;
  failed(): void;
}

/** The context of one visit of a service. */
export class Visit {
  constructor(context?: Context);
  readonly context: Context;
  /** How often something was added after the end. */
  readonly late: number;
  add(context: Context): boolean;
  change(step: (context: Context) => Context): boolean;
  change(step: (context: Context) => PromiseLike<Context>): Promise<boolean>;
  count(bag: Bag, path: string, more?: number | bigint): boolean;
  branch(): Visit;
  expect(): Reply;
  end(): Context;
}
