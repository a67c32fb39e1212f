// Random calls on the wasm build, held against what the archive gave: `compare --record` writes each call with all that came of it
// (rust/compare/src/record.rs), and this program, which reads that on standard input, makes the same call and compares answer, place,
// count and every lent number, those just past each slice too.
//
//   compare --record --seed N --calls N | node random.mjs [FILE.wasm]
import fs from 'node:fs';
import { pathToFileURL } from 'node:url';
import { WASM } from './vectors.mjs';

const NAMES = ['check', 'read', 'write', 'compile', 'examine', 'unstarted', 'start', 'run', 'post', 'discard', 'plan_start', 'plan_run',
  'plan_post', 'plan_discard', 'plan_replay'];
const UNTOUCHED = 0x5a5a5a5a, UNTOUCHED_BYTE = 0x5a, BEYOND = 4;

// The stream of numbers, read as it comes.
class Numbers {
  #chunks; #rest = Buffer.alloc(0);
  constructor(stream) { this.#chunks = stream[Symbol.asyncIterator](); }
  async #more(bytes) {
    const parts = [this.#rest];
    for (let have = this.#rest.length; have < bytes;) {
      const { value, done } = await this.#chunks.next();
      if (done) { this.#rest = Buffer.concat(parts); return false; }
      parts.push(value); have += value.length;
    }
    this.#rest = Buffer.concat(parts);
    return true;
  }
  async take(count) {
    if (this.#rest.length < 4 * count && !(await this.#more(4 * count))) return null;
    const list = new Int32Array(count);
    for (let i = 0; i < count; i++) list[i] = this.#rest.readInt32LE(4 * i);
    this.#rest = this.#rest.subarray(4 * count);
    return list;
  }
  async one() { return (await this.take(1))?.[0] ?? null; }
  async list() { return this.take(await this.one()); }
}

// One recorded call: what it is lent and what it gave.
async function next(numbers, last) {
  const name = await numbers.one();
  if (name === null) return null;
  const length = await numbers.one();
  const by = length === -1 ? last : await numbers.take(length), text = await numbers.list(), widget = await numbers.list();
  const [room, event, argument] = await numbers.take(3), events = await numbers.list(), [answer, place, count, done] = await numbers.take(4);
  return { name: NAMES[name], by, text, widget, room, event, argument, events,
    gave: { answer, place, count, done, widget: await numbers.list(), numbers: await numbers.list(), bytes: await numbers.list() } };
}

// The module's memory behind its data, laid out anew for each call.
class Bench {
  constructor(exports) { this.x = exports; this.base = (Number(exports.__heap_base.value) + 15) & ~15; }
  place(bytes) {
    const at = this.end;
    this.end = (at + bytes + 15) & ~15;
    const short = this.end - this.x.memory.buffer.byteLength;
    if (short > 0) this.x.memory.grow(Math.ceil(short / 65536));
    return at;
  }
  numbers(list) { const at = this.place(4 * list.length); new Int32Array(this.x.memory.buffer).set(list, at >> 2); return at; }
  bytes(list) { const at = this.place(list.length); new Uint8Array(this.x.memory.buffer).set(list, at); return at; }

  // Makes the call; all that it gave, in the recorded form.
  make(c) {
    this.end = this.base;
    const inBytes = c.name === 'write', n = (list) => BigInt(list.length), blank = (count) => new Array(count + BEYOND);
    const by = this.numbers(c.by), text = this.bytes(c.text), events = this.numbers(c.events);
    const widget = this.numbers([...c.widget, ...blank(0).fill(UNTOUCHED)]);
    const lentNumbers = blank(inBytes ? 0 : c.room).fill(UNTOUCHED), lentBytes = blank(inBytes ? c.room : 0).fill(UNTOUCHED_BYTE);
    const numbers = this.numbers(lentNumbers), bytes = this.bytes(lentBytes), report = this.numbers([0, 0, 0]);
    const room = BigInt(c.room), B = [by, n(c.by)], W = [widget, n(c.widget)], N = [numbers, room];
    const words = { check: B, read: [text, n(c.text), ...N], write: [...B, bytes, room], compile: [...B, ...N], examine: B, unstarted: W,
      start: [...B, ...W, ...N], post: [...B, ...W, c.event, c.argument], discard: [...B, ...W], replay: [...B, ...W, events, n(c.events), ...N] };
    words.run = words.start;
    const answer = this.x[`qh_${c.name}`](...words[c.name.replace('plan_', '')], report);
    const v = new Int32Array(this.x.memory.buffer), cut = (at, count) => v.slice(at >> 2, (at >> 2) + count);
    const [place, count, done] = cut(report, 3);
    if (cut(by, c.by.length).some((x, i) => x !== c.by[i])) return { answer, place, count, done, wrote: 'what it was lent to read' };
    return { answer, place, count, done, widget: cut(widget, c.widget.length + BEYOND), numbers: cut(numbers, lentNumbers.length),
      bytes: new Uint8Array(this.x.memory.buffer).slice(bytes, bytes + lentBytes.length) };
  }
}

function difference(got, want) {
  if (got.wrote) return `it changed ${got.wrote}`;
  for (const k of ['answer', 'place', 'count', 'done']) if (got[k] !== want[k]) return `${k}: ${got[k]}, by the archive ${want[k]}`;
  for (const k of ['widget', 'numbers', 'bytes']) {
    if (got[k].length !== want[k].length) return `${k}: another length`;
    const i = got[k].findIndex((x, j) => x !== want[k][j]);
    if (i >= 0) return `${k}[${i}]: ${got[k][i]}, by the archive ${want[k][i]}`;
  }
  return null;
}

export async function random(wasm, stream) {
  const { instance } = await WebAssembly.instantiate(wasm, {}), bench = new Bench(instance.exports), numbers = new Numbers(stream);
  const answers = new Map(), names = new Set();
  let calls = 0, by = new Int32Array(0);
  for (let c = await next(numbers, by); c !== null; c = await next(numbers, by)) {
    by = c.by; calls++; names.add(c.name); answers.set(c.gave.answer, (answers.get(c.gave.answer) ?? 0) + 1);
    let how;
    try { how = difference(bench.make(c), c.gave); } catch (e) { how = `it stopped: ${e.message}`; }
    if (how) return { calls, apart: `call ${calls}, ${c.name}: ${how}`, answers, names };
  }
  return { calls, apart: null, answers, names };
}

if (import.meta.url === pathToFileURL(process.argv[1]).href) {
  const { calls, apart, answers, names } = await random(fs.readFileSync(process.argv[2] ?? WASM), process.stdin);
  if (apart) console.log(`DIFFERS ${apart}`);
  const seen = [...answers].sort((a, b) => a[0] - b[0]).map(([n, times]) => `${n}:${times}`).join(' ');
  const ok = !apart && calls > 0;
  console.log(`random calls: ${calls} calls of ${names.size} entry points, answers ${seen}: ${ok ? '1 passed, 0' : '0 passed, 1'} failed`);
  process.exit(ok ? 0 : 1);
}
