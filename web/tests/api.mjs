// The module's own promises: refusals are values, exceptions say misuse, a widget survives any order of calls, chart and plan agree.
import assert from 'node:assert/strict';
import fs from 'node:fs';
import test from 'node:test';
import v8 from 'node:v8';
import vm from 'node:vm';
import { ANSWERS, Engine, RULES, Widget } from '../quasarhorn.js';
import { K, deep } from './charts.mjs';
import { WASM } from './vectors.mjs';

const bytes = fs.readFileSync(WASM), engine = await Engine.load(bytes), made = (text = K) => engine.read(text).chart;
const never = { number: 7, place: 0, done: false };
const is = (answer, number, place = 0) => { assert.equal(answer.number, number); assert.equal(answer.place, place); assert.equal(answer.done, number === 0); };

test('the file: under 64 KB, no imports, one memory', async () => {
  const module = await WebAssembly.compile(bytes);
  assert.deepEqual(WebAssembly.Module.imports(module), []);
  assert.ok(bytes.length < 65536, `${bytes.length} bytes`);
  assert.equal(WebAssembly.Module.exports(module).filter((e) => e.kind === 'function' && e.name.startsWith('qh_')).length, 15);
});
test('load: a module, bytes, a response; not a failed one, not another module', async () => {
  for (const source of [await WebAssembly.compile(bytes), bytes, new Response(bytes), Promise.resolve(new Response(bytes))]) await Engine.load(source);
  await assert.rejects(Engine.load(new Response('', { status: 404 })), /HTTP 404/);
  await assert.rejects(Engine.load(new Uint8Array([0, 97, 115, 109, 1, 0, 0, 0])), /no quasarhorn/);
});
test('K: five events, over the plan and over the chart', () => {
  const wants = ['1 0 0,2 1 0,3 2 0,6 9 0,3 3 0', '1 1 0,2 3 0,3 4 0,6 7 0', '1 2 0,2 4 0,2 2 0,4 0 60,3 1 0', '1 0 0,2 1 0,3 2 0,3 4 0,6 7 0',
    '1 2 0,2 4 0,2 2 0,4 0 100,3 1 0'];
  for (const over of ['plan', 'chart']) {
    const widget = made().widget({ over });
    assert.equal(widget.start().trace.join(';'), '3,0,0;3,1,0');
    [1, 2, 1, 1, 1].forEach((e, i) => assert.equal(widget.send(e).trace.map((x) => x.join(' ')).join(), wants[i]));
    assert.deepEqual([widget.active, widget.value(0), widget.slot(2), widget.slot(1), widget.queue], [[0, 1], 100, 4, null, []]);
  }
});
test('each answer has words, with the line or the rule', () => {
  for (let n = 0; n <= 14; n++) assert.ok(ANSWERS[n].length > 3);
  assert.equal(RULES.length, 8);
  const { answer } = engine.read('S\t0\t-\to\t1\nS\t1\t0\tb\t-\nX\n');
  is(answer, 1, 3); assert.match(answer.words, /^line 3: /);
  const rule = engine.read('S\t0\t-\to\t0\nS\t1\t0\tb\t-\nE\t0\n').answer;
  is(rule, 3, 4); assert.match(rule.words, /^rule R4 fails: an o state's default/);
  is(engine.read('S'.repeat(40000)).answer, 2, 0);
  is(made().compile({ room: 194 }).answer, 4); is(made().compile({ room: 195 }).answer, 0);
  is(engine.plan([1, 2, 3]).answer, 5);
  is(made().write({ room: 10 }).answer, 13);
  const value = made().numbers();
  value[0] = 65;
  is(engine.chart(value).answer, 3, 0);
});
test('calls before the start are refused with 7, and a refused start leaves 7', () => {
  for (const over of ['plan', 'chart']) {
    const widget = made().widget({ over });
    for (const answer of [widget.run().answer, widget.post(1), widget.discard(), widget.send(1).answer, widget.replay([1, 0]).answer]) {
      for (const k of Object.keys(never)) assert.equal(answer[k], never[k]);
    }
    is(widget.start({ room: 5 }).answer, 11); is(widget.run().answer, 7); assert.equal(widget.started, false);
    is(widget.start({ room: 6 }).answer, 0); is(widget.run().answer, 8); is(widget.discard(), 8); is(widget.post(3), 10); is(widget.post(1, 1000000001), 10);
    for (let i = 0; i < 16; i++) is(widget.post(1, i), 0);
    is(widget.post(1), 9); assert.equal(widget.queue.length, 16);
  }
});
test('a refused call changes nothing, not even a number', () => {
  const widget = made().widget();
  widget.start(); widget.post(1, 5);
  const before = widget.save();
  is(widget.run({ room: 14 }).answer, 11); is(widget.post(0), 10);
  assert.deepEqual(widget.save(), before);
  is(widget.run({ room: 15 }).answer, 0);
});
test('replay stops at the first refusal, with what was done', () => {
  for (const over of ['plan', 'chart']) {
    const widget = made().widget({ over });
    widget.start();
    const all = widget.replay([1, 0, 2, 0, 1, 0]);
    assert.deepEqual([all.answer.number, all.done, all.trace.length], [0, 3, 5]);
    const some = widget.replay([1, 0, 9, 0, 1, 0]);
    assert.deepEqual([some.answer.number, some.done, widget.active], [10, 1, [0, 2, 4]]);
    assert.deepEqual(widget.replay([]).done, 0);
  }
});
test('save and restore; what does not belong is refused by the next call', () => {
  const chart = made(), a = chart.widget(), b = chart.widget();
  a.start(); a.send(1);
  b.restore(a.save());
  assert.deepEqual(b.send(2), a.send(2)); assert.deepEqual(b.save(), a.save());
  b.restore(Array.from(a.save())); is(b.discard(), 8);
  const damaged = a.save();
  damaged[1] = 0;
  b.restore(damaged); is(b.post(1), 6);
  damaged[0] = 0;
  b.restore(damaged); is(b.post(1), 7); is(b.start().answer, 0);
});
test('misuse throws, and nothing else does', () => {
  const chart = made(), widget = chart.widget();
  widget.start();
  for (const bad of [1.5, NaN, 2 ** 31, -(2 ** 31) - 1, Infinity, '1', null, {}, 1n, undefined]) {
    assert.throws(() => widget.post(bad), RangeError);
    if (bad !== undefined) assert.throws(() => widget.post(1, bad), RangeError);
    assert.throws(() => widget.replay([1, bad]), RangeError);
  }
  for (const bad of [-1, 64, 0.5, '0']) assert.throws(() => widget.isActive(bad), RangeError);
  for (const room of [-1, 0.5, 2 ** 25, NaN, '5']) assert.throws(() => widget.run({ room }), RangeError);
  assert.throws(() => widget.restore([1, 2]), RangeError); assert.throws(() => widget.restore(null), TypeError);
  assert.throws(() => widget.restore(new Array(178).fill(0.5)), RangeError);
  assert.throws(() => widget.replay([1]), RangeError); assert.throws(() => engine.read(5), TypeError); assert.throws(() => new Widget(), TypeError);
  assert.throws(() => chart.widget({ over: 'both' }), TypeError); assert.throws(() => new Engine(), TypeError);
  assert.throws(() => engine.chart([1]), RangeError);
  is(widget.post(2147483647, -2147483648), 10);
});
test('what is disposed of throws, and its memory is used again', () => {
  const chart = made(), widget = chart.widget(), other = chart.widget({ over: 'chart' });
  widget.start(); other.start(); chart.dispose(); chart.dispose();
  assert.throws(() => widget.run(), /plan was disposed of/); assert.throws(() => other.post(1), /chart was disposed of/);
  assert.throws(() => chart.widget(), /disposed/); assert.throws(() => chart.write(), /disposed/); assert.throws(() => chart.compile(), /disposed/);
  widget.dispose(); widget.dispose(); other.dispose();
  assert.throws(() => widget.started, /widget was disposed of/); assert.throws(() => widget.save(), /disposed/);
  const one = made().numbers(), again = made();
  assert.deepEqual(again.numbers(), one);
});
// An engine together with the exports of its module, which the API hides.
async function laidOpen() {
  const real = WebAssembly.instantiate;
  let exports;
  WebAssembly.instantiate = async (...words) => { const made = await real(...words); ({ exports } = made.instance ?? made); return made; };
  try { return { engine: await Engine.load(bytes), exports }; } finally { WebAssembly.instantiate = real; }
}
test('a thousand charts, plans and widgets keep the memory small', async () => {
  const { engine: e, exports } = await laidOpen();
  let after = 0;
  for (let i = 0; i < 1000; i++) {
    const { chart } = e.read(i % 2 ? K : deep), { plan } = chart.compile(), widget = plan.widget();
    widget.start(); widget.replay(new Int32Array(2 * (i % 50)).fill(1));
    widget.dispose(); plan.dispose(); chart.dispose();
    if (i === 100) after = exports.memory.buffer.byteLength;
  }
  assert.equal(exports.memory.buffer.byteLength, after); assert.ok(after < 5e6, `${after} bytes`);
});
test('what a page forgets is given back', async () => {
  const { engine: e, exports } = await laidOpen();
  v8.setFlagsFromString('--expose-gc');
  const collect = vm.runInNewContext('gc');
  for (let round = 0; round < 40; round++) {
    for (let i = 0; i < 50; i++) e.read(deep).chart.widget({ over: 'chart' }).start();
    collect();
    await new Promise((done) => { setTimeout(done, 2); });
  }
  const kept = exports.memory.buffer.byteLength; // 2,000 charts of 16 KB and widgets of 1 KB are 34 MB
  assert.ok(kept < 10e6, `${kept} bytes`);
});
test('any order of calls: chart and plan agree on each, number by number, and nothing throws', () => {
  let seed = 12345;
  const dice = (n) => { seed = (Math.imul(seed, 1103515245) + 12345) & 0x7fffffff; return (seed >> 8) % n; };
  for (const text of [K, deep]) {
    const chart = made(text), a = chart.widget(), b = chart.widget({ over: 'chart' });
    let kept = a.save();
    for (let i = 0; i < 3000; i++) {
      const call = ['start', 'post', 'run', 'discard', 'send', 'replay', 'save', 'restore', 'send', 'post', 'send'][dice(11)], room = dice(4) ? 3000 : dice(30);
      const event = dice(chart.events + 2), argument = dice(9) - 4;
      if (call === 'start' && dice(5)) continue;
      if (call === 'save') { kept = a.save(); continue; }
      if (call === 'restore') { if (!dice(5)) kept = kept.map((n) => (dice(150) ? n : dice(5) - 2)); a.restore(kept); b.restore(kept); continue; }
      const make = (w) => ({ start: () => w.start({ room }), run: () => w.run({ room }), post: () => w.post(event, argument), discard: () => w.discard(),
        send: () => w.send(event, argument, { room }), replay: () => w.replay([event, 1, 1, argument], { room }) })[call]();
      const before = a.save(), x = make(a), y = make(b), foreign = (z) => [6, 7].includes((z.answer ?? z).number);
      // a state that was tampered with: the chart tests more of it than the plan does, and either refuses or both agree
      if (foreign(x) || foreign(y)) { a.restore(before); b.restore(before); a.start(); b.start(); kept = a.save(); continue; }
      assert.deepEqual(x, y, `${call} ${event} ${argument} ${room}`); assert.deepEqual(a.save(), b.save());
    }
  }
});
test('a trap shuts the engine with words, for good', async () => {
  const { engine: e, exports } = await laidOpen();
  exports.__stack_pointer.value = 16; // no stack is left
  assert.throws(() => e.read(K), /the engine stopped in qh_read: /);
  exports.__stack_pointer.value = 131072;
  assert.throws(() => e.read(K), /the engine stopped in qh_read: /);
  assert.equal(engine.read(K).answer.number, 0); // another engine goes on
});
