// Quasarhorn in a page: an ES module without dependencies over quasarhorn.wasm (docs/PAGE.md).
// The engine keeps nothing. Charts, plans and widgets are numbers in the module's memory, lent to it call by call; this file keeps their
// places, turns numbers into objects and answers into words. A refusal is a value; an exception says that the API itself was misused.

export const SIZES = Object.freeze({
  states: 64, variables: 16, events: 32, transitions: 128, actions: 256, queue: 16, text: 32768, most: 1000000000,
  chart: 2421, // numbers of a chart
  widget: 178, // numbers of a widget
  plan: 462390, // numbers that hold the plan of any chart
});

export const ANSWERS = Object.freeze({
  0: 'done',
  1: 'the line has a wrong form, place or number, or the E line is missing',
  2: 'a count or a number is outside its size',
  3: 'a chart rule fails',
  4: 'the plan is longer than the numbers lent for it',
  5: 'the plan is cut short or not well formed',
  6: 'this state does not belong to this chart or plan',
  7: 'the widget is not started',
  8: 'no event is waiting',
  9: 'the queue is full',
  10: 'there is no such event, or its argument is out of range',
  11: 'there is no room for the next trace entry',
  12: 'null transitions do not come to rest within 32 steps',
  13: 'the text is longer than the bytes lent for it',
  14: 'a history leads to a state that was never entered',
});

export const RULES = Object.freeze([
  'counts and constants keep their sizes, and every field is one that a text can state',
  'there are at least two states, and state 0 is of kind o',
  'the parent of a state is the state just before it, or an ancestor of that one',
  'a b state has no child, an o state at least one, an a state at least two, all of them o',
  "an o state's default is its direct child",
  'low ≤ first ≤ high',
  'source, trigger, guard variable and target exist; the root is no target and a source only in place; a history belongs to an o state below the root',
  'owners, variables and events of actions exist; a d owner is an o state; a set constant is in its range',
]);

export const KINDS = Object.freeze({ TAKEN: 1, LEFT: 2, ENTERED: 3, VALUE: 4, SENT: 5, TOLD: 6 });

// Instructions of a plan by code, each with the names of the numbers that it uses.
export const INSTRUCTIONS = Object.freeze([null, ['IN', 'state'], ['OUT', 'state', 'owner'], ['SKIPOUT', 'state', 'skip'],
  ['SKIPEMPTY', 'state', 'skip'], ['SKIPFULL', 'state', 'skip'], ['SKIPNOT', 'state', 'child', 'skip'], ['SET', 'variable', 'constant'],
  ['ADD', 'variable', 'constant'], ['TAKE', 'variable'], ['SEND', 'event', 'argument'], ['TELL', 'number']].map(Object.freeze));

// Where the numbers of a chart, a widget and a plan stand.
const STATES_AT = 5, VARIABLES_AT = 197, TRANSITIONS_AT = 245, ACTIONS_AT = 1141;
const ACTIVE_AT = 1, SLOTS_AT = 65, VALUES_AT = 129, LENGTH_AT = 145, ITEMS_AT = 146;
const PLAN_VARIABLES_AT = 6, HEAD = 10, INSTRUCTION = 4;
const ABSENT = -2147483648; // "-" in a field of a chart
const ROOM = 3000; // numbers lent for a trace unless told otherwise: 1,000 entries
const MOST_ROOM = 1 << 24;
const ENTRY_POINTS = ['check', 'read', 'write', 'compile', 'examine', 'unstarted', 'start', 'run', 'post', 'discard', 'plan_start', 'plan_run',
  'plan_post', 'plan_discard', 'plan_replay'].map((name) => `qh_${name}`);
const LENT_WIDGET = BigInt(SIZES.widget), LENT_CHART = BigInt(SIZES.chart);

// ---- answers

const DONE = Object.freeze({ done: true, number: 0, place: 0, words: ANSWERS[0] });
const NO_TRACE = Object.freeze([]);

function wordsOf(number, place) {
  if (number === 1) return `line ${place}: ${ANSWERS[1]}`;
  if (number === 2) return place ? `line ${place}: ${ANSWERS[2]}` : `the text is longer than ${SIZES.text} bytes`;
  if (number === 3) return `rule R${place} fails: ${RULES[place]}`;
  return ANSWERS[number];
}
const answerOf = (number, place) => (number === 0 ? DONE : Object.freeze({ done: false, number, place, words: wordsOf(number, place) }));

// ---- misuse

function int32(n, what) {
  if (typeof n !== 'number' || n !== (n | 0)) throw new RangeError(`${what} is no 32-bit integer`);
  return n;
}
function within(n, end, what) {
  if (!Number.isInteger(n) || n < 0 || n >= end) throw new RangeError(`${what} is not one of 0 to ${end - 1}`);
  return n;
}
function numbersFrom(list, what) {
  if (list instanceof Int32Array) return list;
  if (list === null || typeof list !== 'object' || !Number.isInteger(list.length)) throw new TypeError(`${what} is no list of numbers`);
  return Int32Array.from(list, (n, i) => int32(n, `number ${i} of ${what}`));
}

// ---- memory

// The module's memory behind its stack and data: blocks of 2^k bytes, kept for reuse when they are given back.
class Heap {
  constructor(x) {
    this.memory = x.memory;
    this.end = (Number(x.__heap_base.value) + 15) & ~15;
    this.spare = Array.from({ length: 32 }, () => []);
    this.look();
  }
  look() { this.i32 = new Int32Array(this.memory.buffer); this.u8 = new Uint8Array(this.memory.buffer); }
  take(bytes) {
    const k = Math.max(6, 32 - Math.clz32(Math.max(bytes, 1) - 1)), at = this.spare[k].pop();
    if (at !== undefined) return at;
    const place = this.end, short = place + 2 ** k - this.memory.buffer.byteLength;
    if (short > 0) { this.memory.grow(Math.ceil(short / 65536)); this.look(); }
    this.end += 2 ** k;
    return place;
  }
  give(at, bytes) { this.spare[Math.max(6, 32 - Math.clz32(Math.max(bytes, 1) - 1))].push(at); }
}

// The numbers of a chart, a plan or a widget, where they stand.
class Lent {
  constructor(heap, count, what) { Object.assign(this, { heap, count, what, length: BigInt(count), place: heap.take(4 * count) }); }
  get at() { if (this.place < 0) throw new Error(`this ${this.what} was disposed of`); return this.place; }
  get numbers() { const i = this.at >> 2; return this.heap.i32.subarray(i, i + this.count); }
  free() { if (this.place >= 0) this.heap.give(this.place, 4 * this.count); this.place = -1; }
}
// What a page no longer holds is given back, disposed of or not.
const forgotten = new FinalizationRegistry((lent) => lent.free());
const PRIVATE = Symbol('made by the engine'); // charts, plans and widgets come from calls, not from new
function owned(self, token, lent) {
  if (token !== PRIVATE) throw new TypeError('charts, plans and widgets are made by the engine');
  forgotten.register(self, lent);
  return lent;
}

// ---- the entry points

// A proved function does not trap. If one ever does (a stack too small, a damaged file), the engine says so and stays shut.
class Calls {
  constructor(x) {
    for (const name of ENTRY_POINTS) if (typeof x[name] !== 'function') throw new Error(`the module has no ${name}: it is no quasarhorn.wasm`);
    this.x = x; this.heap = new Heap(x); this.dead = null;
    this.report = this.heap.take(12); this.pair = this.heap.take(8);
    this.room = ROOM; this.trace = this.heap.take(4 * ROOM);
  }
  call(name, ...words) {
    if (this.dead) throw this.dead;
    try { return this.x[name](...words, this.report); } catch (e) {
      this.dead = new Error(`the engine stopped in ${name}: ${e.message}`, { cause: e });
      throw this.dead;
    }
  }
  said(i) { return this.heap.i32[(this.report >> 2) + i]; }
  answer(number) { return answerOf(number, number === 0 ? 0 : this.said(0)); }
  lendTrace(room) {
    if (!Number.isInteger(room) || room < 0 || room > MOST_ROOM) throw new RangeError(`room is not one of 0 to ${MOST_ROOM}`);
    if (room > this.room) { this.heap.give(this.trace, 4 * this.room); this.trace = this.heap.take(4 * room); this.room = room; }
    return BigInt(room);
  }
  entries(count) {
    const v = this.heap.i32, from = this.trace >> 2, list = new Array(count);
    for (let i = 0, k = from; i < count; i++, k += 3) list[i] = [v[k], v[k + 1], v[k + 2]];
    return list;
  }
  // A start or a run, over a chart or over a plan.
  traced(name, over, widget, room) {
    const lent = this.lendTrace(room);
    const number = this.call(name, over.at, over.length, widget.at, LENT_WIDGET, this.trace, lent);
    return { answer: this.answer(number), trace: number === 0 ? this.entries(this.said(1)) : NO_TRACE };
  }
  // Events that stand in the module's memory, replayed over a plan; the trace is that of the last run.
  replayed(name, over, widget, at, length, lent) {
    const number = this.call(name, over.at, over.length, widget.at, LENT_WIDGET, at, length, this.trace, lent);
    return { answer: this.answer(number), trace: this.entries(this.said(1)) };
  }
  // Bytes of the module's memory, for the time of one call.
  borrow(bytes, use) {
    const at = this.heap.take(bytes);
    try { return use(at); } finally { this.heap.give(at, bytes); }
  }
}

// ---- what a page uses

export class Engine {
  #calls;
  // source: a URL, a Response or a promise of one, a WebAssembly.Module, or the bytes. In Node: the bytes.
  static async load(source = new URL('./quasarhorn.wasm', import.meta.url)) {
    let from = await source;
    if (from instanceof URL || typeof from === 'string') from = await fetch(from);
    if (typeof Response !== 'undefined' && from instanceof Response) {
      if (!from.ok) throw new Error(`quasarhorn.wasm: HTTP ${from.status}`);
      from = await from.arrayBuffer(); // a server that names another type than application/wasm is served all the same
    }
    const made = await WebAssembly.instantiate(from, {});
    return new Engine(PRIVATE, (made.instance ?? made).exports);
  }
  constructor(token, exports) {
    if (token !== PRIVATE) throw new TypeError('use Engine.load');
    this.#calls = new Calls(exports);
  }
  // A chart's text, as a string or as bytes.
  read(text) {
    const c = this.#calls, bytes = typeof text === 'string' ? new TextEncoder().encode(text) : text;
    if (!(bytes instanceof Uint8Array)) throw new TypeError('a chart text is a string or a Uint8Array');
    const n = Math.min(bytes.length, SIZES.text + 1), chart = new Lent(c.heap, SIZES.chart, 'chart'); // one byte too long is as good as more
    const number = c.borrow(n, (at) => {
      c.heap.u8.set(bytes.subarray(0, n), at);
      return c.call('qh_read', at, BigInt(n), chart.at, LENT_CHART);
    });
    return this.#made(c.answer(number), chart, Chart, 'chart');
  }
  // A chart from its numbers; rules R0 to R7 are checked.
  chart(numbers) { return this.#from(numbers, SIZES.chart, 'qh_check', Chart, 'chart'); }
  // A plan from its numbers, examined.
  plan(numbers) { return this.#from(numbers, null, 'qh_examine', Plan, 'plan'); }

  #from(numbers, count, name, Kind, what) {
    const c = this.#calls, list = numbersFrom(numbers, `the ${what}`);
    if (count !== null && list.length !== count) throw new RangeError(`a ${what} has ${count} numbers`);
    const lent = new Lent(c.heap, list.length, what);
    lent.numbers.set(list);
    return this.#made(c.answer(c.call(name, lent.at, lent.length)), lent, Kind, what);
  }
  #made(answer, lent, Kind, what) {
    if (!answer.done) { lent.free(); return { answer, [what]: null }; }
    return { answer, [what]: new Kind(PRIVATE, this.#calls, lent) };
  }
}

const letter = (n) => String.fromCharCode(n);
const or = (n) => (n === ABSENT ? null : n);
function rows(count, from, width, v, row) {
  return Object.freeze(Array.from({ length: count }, (_, i) => Object.freeze(row(i, v.subarray(from + width * i, from + width * (i + 1))))));
}

export class Chart {
  #calls; #lent; #plan = null;
  constructor(token, calls, lent) {
    this.#lent = owned(this, token, lent); this.#calls = calls;
    const v = lent.numbers, parent = (i) => or(v[STATES_AT + 3 * i]);
    const children = Array.from({ length: v[0] }, () => []);
    for (let i = 1; i < v[0]; i++) children[parent(i)].push(i);
    this.states = rows(v[0], STATES_AT, 3, v, (i, r) => ({
      number: i, parent: or(r[0]), kind: letter(r[1]), default: or(r[2]), children: Object.freeze(children[i]),
    }));
    this.variables = rows(v[1], VARIABLES_AT, 3, v, (i, r) => ({ number: i, low: r[0], high: r[1], first: r[2] }));
    this.events = v[2];
    this.transitions = rows(v[3], TRANSITIONS_AT, 7, v, (i, r) => ({
      number: i, source: r[0], trigger: r[1],
      guard: r[3] === ABSENT ? null : Object.freeze({ variable: r[2], sign: letter(r[3]), constant: r[4] }),
      target: r[5] === ABSENT ? null : Object.freeze({ history: r[5] !== 0, state: r[6] }),
    }));
    this.actions = rows(v[4], ACTIONS_AT, 5, v, (i, r) => ({ owner: letter(r[0]), of: r[1], act: letter(r[2]), first: r[3], second: or(r[4]) }));
    Object.freeze(this);
  }
  // The chart's text; 13 where it has more bytes than room.
  write({ room = SIZES.text } = {}) {
    const c = this.#calls, n = within(room, MOST_ROOM, 'room');
    return c.borrow(n, (at) => {
      const answer = c.answer(c.call('qh_write', this.#lent.at, LENT_CHART, at, BigInt(n)));
      return { answer, text: answer.done ? new TextDecoder().decode(c.heap.u8.slice(at, at + c.said(1))) : '' };
    });
  }
  // The chart's plan; 4 where it has more numbers than room, which the default never is.
  compile({ room = SIZES.plan } = {}) {
    const c = this.#calls, n = within(room, MOST_ROOM, 'room');
    return c.borrow(4 * n, (at) => {
      const answer = c.answer(c.call('qh_compile', this.#lent.at, LENT_CHART, at, BigInt(n)));
      if (!answer.done) return { answer, plan: null };
      const lent = new Lent(c.heap, c.said(1), 'plan');
      c.heap.i32.copyWithin(lent.at >> 2, at >> 2, (at >> 2) + lent.count);
      return { answer, plan: new Plan(PRIVATE, c, lent) };
    });
  }
  // A widget over the chart's plan, compiled once, or, told so, over the chart itself. Both answer every call alike.
  widget({ over = 'plan' } = {}) {
    if (over === 'chart') return new Widget(PRIVATE, this.#calls, this, this.#lent, '');
    if (over !== 'plan') throw new TypeError("over is 'plan' or 'chart'");
    this.#lent.at; // a disposed chart makes no widget
    this.#plan ??= this.compile().plan;
    return this.#plan.widget();
  }
  numbers() { return this.#lent.numbers.slice(); }
  dispose() { this.#plan?.dispose(); this.#lent.free(); }
}

export class Plan {
  #calls; #lent; #code;
  constructor(token, calls, lent) {
    this.#lent = owned(this, token, lent); this.#calls = calls;
    const v = lent.numbers, heads = PLAN_VARIABLES_AT + 3 * v[1];
    [this.states, , this.events, , this.instructions, this.start] = v; // counts; the variables and heads follow as rows
    this.variables = rows(v[1], PLAN_VARIABLES_AT, 3, v, (i, r) => ({ number: i, low: r[0], high: r[1], first: r[2] }));
    this.heads = rows(v[3], heads, HEAD, v, (i, r) => ({
      transition: r[0], source: r[1], trigger: r[2], guard: r[3] < 0 ? null : Object.freeze({ variable: r[3], sign: ' =<>'[r[4]], constant: r[5] }),
      first: r[6], last: r[7], start: r[8], length: r[9],
    }));
    this.#code = heads + HEAD * v[3];
    this.length = this.#code + INSTRUCTION * this.instructions; // in numbers
    Object.freeze(this);
  }
  // An instruction: its code, its name, and the numbers that it uses, by name.
  instruction(i) {
    const k = this.#code + INSTRUCTION * within(i, this.instructions, 'the instruction'), v = this.#lent.numbers, [name, ...fields] = INSTRUCTIONS[v[k]];
    return { code: v[k], name, ...Object.fromEntries(fields.map((field, j) => [field, v[k + 1 + j]])) };
  }
  widget() { return new Widget(PRIVATE, this.#calls, this, this.#lent, 'plan_'); }
  numbers() { return this.#lent.numbers.slice(0, this.length); }
  dispose() { this.#lent.free(); }
}

export class Widget {
  #calls; #over; #runs; #lent; #names;
  constructor(token, calls, runs, over, kind) {
    over.at; // what is disposed of makes no widget
    this.#lent = owned(this, token, new Lent(calls.heap, SIZES.widget, 'widget'));
    this.#calls = calls; this.#runs = runs; this.#over = over;
    this.#names = { replay: kind ? 'qh_plan_replay' : null };
    for (const call of ['start', 'run', 'post', 'discard']) this.#names[call] = `qh_${kind}${call}`;
    calls.call('qh_unstarted', this.#lent.at, LENT_WIDGET);
  }
  // The chart or plan that it runs.
  get runs() { return this.#runs; }

  start({ room = ROOM } = {}) { return this.#calls.traced(this.#names.start, this.#over, this.#lent, room); }
  run({ room = ROOM } = {}) { return this.#calls.traced(this.#names.run, this.#over, this.#lent, room); }
  post(event, argument = 0) {
    int32(event, 'the event'); int32(argument, 'the argument');
    const c = this.#calls, o = this.#over;
    return c.answer(c.call(this.#names.post, o.at, o.length, this.#lent.at, LENT_WIDGET, event, argument));
  }
  discard() { const c = this.#calls, o = this.#over; return c.answer(c.call(this.#names.discard, o.at, o.length, this.#lent.at, LENT_WIDGET)); }
  // Posted and, where that is accepted, run. The run takes the front event; one that it refuses goes on waiting.
  // Over a plan that is a replay of one event: one call, with the plan examined once.
  send(event, argument = 0, { room = ROOM } = {}) {
    if (this.#names.replay === null) {
      const answer = this.post(event, argument);
      return answer.done ? this.run({ room }) : { answer, trace: NO_TRACE };
    }
    int32(event, 'the event'); int32(argument, 'the argument');
    const c = this.#calls, lent = c.lendTrace(room), { i32 } = c.heap;
    i32[c.pair >> 2] = event; i32[(c.pair >> 2) + 1] = argument;
    return c.replayed(this.#names.replay, this.#over, this.#lent, c.pair, 2n, lent);
  }
  // Pairs of event and argument, each posted and run, up to the first refusal: how many were done, and the trace of the last run.
  replay(pairs, { room = ROOM } = {}) {
    const c = this.#calls, list = numbersFrom(pairs, 'the list of events'), o = this.#over, lent = c.lendTrace(room);
    if (list.length % 2) throw new RangeError('a list of events is pairs of event and argument');
    if (this.#names.replay === null) return this.#replayed(list, room);
    return c.borrow(4 * list.length, (at) => {
      c.heap.i32.set(list, at >> 2);
      const called = c.replayed(this.#names.replay, o, this.#lent, at, BigInt(list.length), lent);
      return { ...called, done: c.said(2) };
    });
  }
  // The same over a chart, call by call.
  #replayed(list, room) {
    let trace = NO_TRACE;
    for (let i = 0; i < list.length; i += 2) {
      const posted = this.post(list[i], list[i + 1]);
      if (!posted.done) return { answer: posted, done: i / 2, trace };
      const ran = this.run({ room });
      ({ trace } = ran);
      if (!ran.answer.done) return { answer: ran.answer, done: i / 2, trace };
    }
    return { answer: DONE, done: list.length / 2, trace };
  }

  get started() { return this.#lent.numbers[0] === 1; }
  isActive(state) { return this.#lent.numbers[ACTIVE_AT + within(state, SIZES.states, 'the state')] === 1; }
  get active() { const v = this.#lent.numbers, list = []; for (let s = 0; s < SIZES.states; s++) if (v[ACTIVE_AT + s] === 1) list.push(s); return list; }
  slot(state) { const n = this.#lent.numbers[SLOTS_AT + within(state, SIZES.states, 'the state')]; return n === -1 ? null : n; }
  value(variable) { return this.#lent.numbers[VALUES_AT + within(variable, SIZES.variables, 'the variable')]; }
  get queue() {
    const v = this.#lent.numbers, n = Math.min(Math.max(v[LENGTH_AT], 0), SIZES.queue);
    return Array.from({ length: n }, (_, i) => ({ event: v[ITEMS_AT + 2 * i], argument: v[ITEMS_AT + 2 * i + 1] }));
  }
  // All its numbers, to keep and to bring back. What is brought back is examined by the next call: 6 or 7 where it does not belong here.
  save() { return this.#lent.numbers.slice(); }
  restore(numbers) {
    const list = numbersFrom(numbers, 'the saved widget');
    if (list.length !== SIZES.widget) throw new RangeError(`a saved widget has ${SIZES.widget} numbers`);
    this.#lent.numbers.set(list);
  }
  dispose() { this.#lent.free(); }
}
