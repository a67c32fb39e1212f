// How much of the engine's stack is ever used: the stack lies below everything else in the module's memory; it is painted, every entry point
// is called on the deepest and the widest charts, and what is no longer paint was used. It must stay below half of the stack.
import fs from 'node:fs';
import { deep, wide, broad } from './charts.mjs';
import { WASM } from './vectors.mjs';

const PAINT = 0xa5, PLAN = 462390, TRACE = 300000;
const { instance: { exports: x } } = await WebAssembly.instantiate(fs.readFileSync(process.argv[2] ?? WASM), {});
const top = Number(x.__stack_pointer.value);
let end = (Number(x.__heap_base.value) + 15) & ~15;
const take = (bytes) => { const at = end; end += (bytes + 15) & ~15; return at; };
const text = take(32769), chart = take(2421 * 4), widget = take(178 * 4), trace = take(TRACE * 4), plan = take(PLAN * 4);
const pairs = take(8 * 400), report = take(12);
x.memory.grow(Math.ceil((end - x.memory.buffer.byteLength) / 65536));
const u8 = new Uint8Array(x.memory.buffer), i32 = new Int32Array(x.memory.buffer), answers = new Set();

let most = 0, where = '';
function call(name, ...words) {
  u8.fill(PAINT, 0, top);
  const answer = x[name](...words, report);
  let i = 0;
  while (u8[i] === PAINT) i++;
  if (top - i > most) { most = top - i; where = name; }
  answers.add(answer);
  return answer;
}
function everything(written) {
  const bytes = new TextEncoder().encode(written), C = [chart, 2421n], W = [widget, 178n], T = [trace, BigInt(TRACE)];
  u8.set(bytes, text);
  if (call('qh_read', text, BigInt(bytes.length), ...C)) throw new Error('a chart of this test is refused');
  call('qh_check', ...C); call('qh_write', ...C, text, 32768n); call('qh_compile', ...C, plan, BigInt(PLAN));
  const P = [plan, BigInt(i32[(report >> 2) + 1])];
  call('qh_examine', ...P);
  for (const [over, kind] of [[C, ''], [P, 'plan_']]) {
    call('qh_unstarted', ...W); call(`qh_${kind}start`, ...over, ...W, ...T);
    for (let i = 0; i < 96; i++) {
      call(`qh_${kind}post`, ...over, ...W, 1 + ((i * 5) % 32), i); call(`qh_${kind}run`, ...over, ...W, ...T);
      if (i % 16 === 0) { call(`qh_${kind}post`, ...over, ...W, 1, 0); call(`qh_${kind}discard`, ...over, ...W); }
    }
  }
  for (let i = 0; i < 400; i++) { i32[(pairs >> 2) + 2 * i] = 1 + ((i * 7) % 32); i32[(pairs >> 2) + 2 * i + 1] = i; }
  call('qh_plan_replay', ...P, ...W, pairs, 800n, ...T);
}
for (const c of [deep, wide, broad]) everything(c);
const ok = most > 0 && most < top / 2;
const met = [...answers].sort((a, b) => a - b).join(' ');
console.log(`stack: at most ${most} of ${top} bytes used (${where}); answers met: ${met}: ${ok ? '1 passed, 0' : '0 passed, 1'} failed`);
process.exit(ok ? 0 : 1);
