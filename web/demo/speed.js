// Speed on chart K: events 1, 2, 1 over and over, by replay in one call, by one call an event, and by hand-written JavaScript.
import { handWrittenK } from './k.js';

const TURNS = 5;
function best(turn) { // the quickest of some turns: what else the machine does only ever adds
  let least = Infinity;
  for (let i = 0; i < TURNS; i++) { const t = performance.now(); turn(); least = Math.min(least, performance.now() - t); }
  return least * 1e6; // ns
}
// The hand-written K gives what the engine gives.
function agree(widget, events) {
  const hand = handWrittenK();
  widget.start();
  for (const event of events) {
    const { answer, trace } = widget.send(event), n = hand.send(event);
    if (!answer.done || trace.flat().join() !== hand.trace.subarray(0, n).join()) return false;
  }
  return widget.value(0) === hand.value;
}

// Nanoseconds an event, each way.
export function measure(engine, text, n = 300000) {
  const { chart } = engine.read(text), widget = chart.widget(), over = chart.widget({ over: 'chart' }), hand = handWrittenK();
  const pairs = new Int32Array(2 * n), m = Math.min(n, 100000);
  for (let i = 0; i < n; i++) pairs[2 * i] = i % 3 === 1 ? 2 : 1;
  const events = Array.from({ length: 3000 }, (_, i) => 1 + ((i * i + (i >> 3)) % 2));
  let told = 0, refused = 0;
  const send = (w) => () => { for (let i = 0; i < m; i++) if (!w.send(pairs[2 * i]).answer.done) refused++; };
  widget.start(); over.start();
  const replay = best(() => { const r = widget.replay(pairs); if (r.done !== n) refused++; }) / n;
  const each = best(send(widget)) / m, chartEach = best(send(over)) / m;
  const byHand = best(() => { for (let i = 0; i < n; i++) told += hand.send(pairs[2 * i]); }) / n;
  const alike = agree(widget, events);
  widget.dispose(); over.dispose(); chart.dispose();
  return { replay, each, chartEach, byHand, alike: alike && told > 0, refused };
}
