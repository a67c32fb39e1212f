/** One entry of a trace: its kind (1 taken, 2 left, 3 entered, 4 value, 5 sent, 6 told) and two numbers. */
export type Entry = readonly [kind: 1 | 2 | 3 | 4 | 5 | 6, first: number, second: number];
export type AnswerNumber = 0 | 1 | 2 | 3 | 4 | 5 | 6 | 7 | 8 | 9 | 10 | 11 | 12 | 13 | 14;

/** An answer of the engine. Where it is not done it is a refusal, and nothing has changed. */
export interface Answer {
  readonly done: boolean;
  readonly number: AnswerNumber;
  /** The line for 1 and 2 (0: the text is too long), the rule for 3, else 0. */
  readonly place: number;
  /** The answer in words, with its line or rule. */
  readonly words: string;
}
export interface Called { readonly answer: Answer; readonly trace: readonly Entry[] }
/** `done`: how many events were posted and run; `trace`: that of the last run. */
export interface Replayed extends Called { readonly done: number }
export interface TraceOptions {
  /** Numbers lent for the trace, three an entry: 3,000 unless told otherwise. */
  room?: number;
}

export interface Guard { readonly variable: number; readonly sign: '=' | '<' | '>'; readonly constant: number }
export interface StateRow {
  readonly number: number;
  readonly parent: number | null;
  /** o: in one of its children at a time; a: in all of them at once; b: without children. */
  readonly kind: 'o' | 'a' | 'b';
  readonly default: number | null;
  readonly children: readonly number[];
}
export interface VariableRow { readonly number: number; readonly low: number; readonly high: number; readonly first: number }
export interface TransitionRow {
  readonly number: number;
  readonly source: number;
  /** The event, or 0 for a null transition. */
  readonly trigger: number;
  readonly guard: Guard | null;
  /** null: a reaction in place. */
  readonly target: { readonly history: boolean; readonly state: number } | null;
}
export interface ActionRow {
  readonly owner: 'e' | 'x' | 'd' | 't';
  readonly of: number;
  readonly act: 's' | 'a' | 'k' | 'q' | 'o';
  readonly first: number;
  readonly second: number | null;
}
/** A head of a plan: when its block runs, and where it stands among the instructions. */
export interface Head {
  readonly transition: number;
  readonly source: number;
  readonly trigger: number;
  readonly guard: Guard | null;
  /** The states of the span. */
  readonly first: number;
  readonly last: number;
  /** The block. */
  readonly start: number;
  readonly length: number;
}
export type Field = 'state' | 'owner' | 'skip' | 'child' | 'variable' | 'constant' | 'event' | 'argument' | 'number';
export interface Instruction extends Readonly<Partial<Record<Field, number>>> { readonly code: number; readonly name: string }

export declare const SIZES: Readonly<Record<
  'states' | 'variables' | 'events' | 'transitions' | 'actions' | 'queue' | 'text' | 'most' | 'chart' | 'widget' | 'plan', number>>;
export declare const ANSWERS: Readonly<Record<AnswerNumber, string>>;
export declare const RULES: readonly string[];
export declare const KINDS: Readonly<Record<'TAKEN' | 'LEFT' | 'ENTERED' | 'VALUE' | 'SENT' | 'TOLD', number>>;
export declare const INSTRUCTIONS: readonly (readonly [name: string, ...fields: Field[]] | null)[];

export declare class Engine {
  private constructor();
  /** Loads quasarhorn.wasm, which stands beside this module unless told otherwise. */
  static load(source?: URL | string | Response | WebAssembly.Module | BufferSource | Promise<Response>): Promise<Engine>;
  /** Reads a chart's text; refused with 1, 2 or 3. */
  read(text: string | Uint8Array): { readonly answer: Answer; readonly chart: Chart | null };
  /** A chart from the numbers that `chart.numbers()` gave; refused with 3. */
  chart(numbers: ArrayLike<number>): { readonly answer: Answer; readonly chart: Chart | null };
  /** A plan from the numbers that `plan.numbers()` gave; refused with 5. */
  plan(numbers: ArrayLike<number>): { readonly answer: Answer; readonly plan: Plan | null };
}

export declare class Chart {
  private constructor();
  readonly states: readonly StateRow[];
  readonly variables: readonly VariableRow[];
  readonly events: number;
  readonly transitions: readonly TransitionRow[];
  readonly actions: readonly ActionRow[];
  /** The chart's text; refused with 13 where it has more bytes than `room`. */
  write(options?: { room?: number }): { readonly answer: Answer; readonly text: string };
  /** The chart's plan; refused with 4 where it has more numbers than `room`, which the default never is. */
  compile(options?: { room?: number }): { readonly answer: Answer; readonly plan: Plan | null };
  /** A widget, not yet started, over the chart's plan, or over the chart itself. */
  widget(options?: { over?: 'plan' | 'chart' }): Widget;
  numbers(): Int32Array;
  /** Gives the memory of the chart and of its own plan back at once; the page's collector does so sooner or later. */
  dispose(): void;
}

export declare class Plan {
  private constructor();
  readonly states: number;
  readonly events: number;
  readonly variables: readonly VariableRow[];
  /** In the order in which they are chosen. */
  readonly heads: readonly Head[];
  /** How many instructions; the first `start` of them are the start block. */
  readonly instructions: number;
  readonly start: number;
  /** In numbers. */
  readonly length: number;
  instruction(index: number): Instruction;
  widget(): Widget;
  numbers(): Int32Array;
  dispose(): void;
}

export declare class Widget {
  private constructor();
  readonly runs: Chart | Plan;
  readonly started: boolean;
  /** The active states, rising. */
  readonly active: readonly number[];
  readonly queue: readonly { readonly event: number; readonly argument: number }[];
  start(options?: TraceOptions): Called;
  post(event: number, argument?: number): Answer;
  run(options?: TraceOptions): Called;
  discard(): Answer;
  /** Posted and, where that is accepted, run. The run takes the front event; one that it refuses goes on waiting. */
  send(event: number, argument?: number, options?: TraceOptions): Called;
  /** Pairs of event and argument, each posted and run, up to the first refusal; over a plan in one call. */
  replay(pairs: ArrayLike<number>, options?: TraceOptions): Replayed;
  isActive(state: number): boolean;
  /** The child that a state was last in, for its history; null: empty. */
  slot(state: number): number | null;
  value(variable: number): number;
  /** All its numbers; what is restored is examined by the next call. */
  save(): Int32Array;
  restore(numbers: ArrayLike<number>): void;
  dispose(): void;
}
