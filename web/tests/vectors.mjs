// Every vector of the repository through the wasm build: texts, runs, lists of calls and saved states, plans.
// node vectors.mjs [FILE.wasm]; the last line is `N passed, M failed`.
import fs from 'node:fs';
import path from 'node:path';
import { pathToFileURL } from 'node:url';
import { Engine, SIZES } from '../quasarhorn.js';

export const REPOSITORY = new URL('../../', import.meta.url).pathname;
export const WASM = new URL('../quasarhorn.wasm', import.meta.url);

const bytesOf = (...file) => { try { return fs.readFileSync(path.join(REPOSITORY, ...file)); } catch { return Buffer.alloc(0); } };
const linesOf = (...file) => { const lines = bytesOf(...file).toString('latin1').split('\n'); if (lines.at(-1) === '') lines.pop(); return lines; };
const NUMBER = /^(0|-?[1-9][0-9]*)$/;
const held = (word) => { const n = BigInt(word); return n > 1000000000n || n < -1000000000n ? 1000000001 : Number(n); };

// ---- what the programs of the repository write, written over the wasm build

// The trace program: starts, then posts and runs each line.
function session(engine, text, input, over) {
  const out = [], report = ({ answer, trace }) => { out.push(`R ${answer.number} ${trace.length}`); for (const e of trace) out.push(e.join(' ')); };
  const { answer, chart } = engine.read(text);
  if (!answer.done) return `R ${answer.number} 0\n`;
  const widget = chart.widget({ over });
  report(widget.start());
  for (const line of input) {
    const fields = line.split('\t');
    if (fields.length !== 2 || !fields.every((f) => NUMBER.test(f))) { out.push('R 1 0'); continue; }
    report(widget.send(held(fields[0]), held(fields[1])));
  }
  chart.dispose(); widget.dispose();
  return `${out.join('\n')}\n`;
}

const pairs = (list) => list.map((p) => ` ${p}`).join('');
function stateLines(widget, variables) {
  const filled = [];
  for (let s = 0; s < SIZES.states; s++) if (widget.slot(s) !== null) filled.push(`${s}:${widget.slot(s)}`);
  const values = Array.from({ length: variables }, (_, v) => widget.value(v));
  return [`S ${widget.started ? 1 : 0}`, `M${pairs(widget.active)}`, `H${pairs(filled)}`, `V${pairs(values)}`,
    `Q${pairs(widget.queue.map((q) => `${q.event}:${q.argument}`))}`];
}
function makeCall(widget, line) {
  const [word, a, b] = line.split(' '), trace = [];
  if (word === 'start' || word === 'run') return widget[word]({ room: Number(a) });
  return { answer: word === 'post' ? widget.post(Number(a), Number(b)) : widget.discard(), trace };
}
const answerLine = ({ answer, trace }) => `R ${answer.number} ${answer.place} ${trace.length}`;

// The program call_vectors, for one case over its chart or its plan.
function caseLines(engine, name, over) {
  const at = 'crates/call_vectors/data', { answer, chart } = engine.read(bytesOf(at, `${name}_chart.txt`)), out = [];
  if (!answer.done) return ['refused'];
  const widget = chart.widget({ over }), saved = name.startsWith('saved') ? linesOf(at, `${name}_state.txt`).map(Number) : null;
  for (const line of linesOf(at, `${name}_calls.txt`)) {
    if (saved) widget.restore(saved);
    const called = makeCall(widget, line);
    out.push(answerLine(called));
    if (!saved) out.push(...called.trace.map((e) => e.join(' ')), ...stateLines(widget, chart.variables.length));
  }
  chart.dispose(); widget.dispose();
  return out;
}

// The program plan_vectors, for one argument; the one after it names the plan that a chart must give.
function planLine(engine, file, next) {
  const at = 'crates/plan_vectors/data';
  if (file.endsWith('.plan')) {
    const { answer, plan } = engine.plan(linesOf(at, file).map((n) => Math.max(-2147483648, Math.min(2147483647, Number(n)))));
    plan?.dispose();
    return `${file.slice(0, -5)}\t${answer.number}`;
  }
  const { chart } = engine.read(bytesOf(at, file)), { answer, plan } = chart.compile(), numbers = plan.numbers();
  const same = numbers.join() === linesOf(at, next).join(), short = chart.compile({ room: plan.length - 1 });
  const back = engine.plan(numbers).plan?.numbers().join() === numbers.join(); // and a plan from its own numbers is itself
  plan.dispose(); chart.dispose();
  return `${file}\t${answer.number}\t${numbers.length}\t${same && back ? 'same' : 'differs'}\t${short.answer.number}`;
}

// The program text_vectors, for one text; what is accepted is also taken over as a value.
function textLine(engine, file) {
  const text = bytesOf('crates/text_vectors/data', file), { answer, chart } = engine.read(text), name = file.replace(/\.txt$/, '');
  let back = '-';
  if (chart) {
    const again = engine.chart(chart.numbers());
    back = chart.write().text === text.toString('latin1') && again.chart?.write().text === text.toString('latin1') ? 'same' : 'differs';
    chart.dispose(); again.chart?.dispose();
  }
  return `${name}\t${answer.number}\t${answer.place}\t${back}`;
}

// ---- all of them, against what must be written

export function runFolders() {
  return ['tests/runs', 'examples'].flatMap((top) => fs.readdirSync(path.join(REPOSITORY, top)).map((d) => `${top}/${d}`))
    .filter((d) => fs.existsSync(path.join(REPOSITORY, d, 'stdout')));
}
export function vectors(engine) {
  const wrong = [];
  let ran = 0;
  const check = (name, got, want) => { ran++; if (got !== want) wrong.push(name); };
  const texts = linesOf('crates/text_vectors/args'), textWants = linesOf('crates/text_vectors/stdout');
  texts.forEach((t, i) => check(`text ${t}`, textLine(engine, t), textWants[i]));
  for (const d of runFolders()) for (const over of ['plan', 'chart']) {
    check(`${d} over the ${over}`, session(engine, bytesOf(d, 'chart.txt'), linesOf(d, 'stdin'), over), bytesOf(d, 'stdout').toString('latin1'));
  }
  const cases = bytesOf('crates/call_vectors/stdout').toString('latin1').split(/^(?=(?:calls|saved)_)/m);
  for (const block of cases) {
    const [title, ...wants] = block.trimEnd().split('\n'), [name, ...by] = title.split(' ');
    check(title, caseLines(engine, name, by.length ? 'plan' : 'chart').join('\n'), wants.join('\n'));
  }
  const plans = linesOf('crates/plan_vectors/args'), planWants = linesOf('crates/plan_vectors/stdout');
  plans.map((p, i) => [p, plans[i + 1]]).filter(([p]) => !p.endsWith('.num'))
    .forEach(([p, next], i) => check(`plan ${p}`, planLine(engine, p, next), planWants[i]));
  return { ran, wrong, counts: { texts: texts.length, runs: 2 * runFolders().length, cases: cases.length, plans: planWants.length } };
}

if (import.meta.url === pathToFileURL(process.argv[1]).href) {
  const { ran, wrong, counts } = vectors(await Engine.load(fs.readFileSync(process.argv[2] ?? WASM)));
  for (const name of wrong.slice(0, 20)) console.log(`DIFFERS ${name}`);
  console.log(`vectors: ${Object.entries(counts).map(([k, n]) => `${n} ${k}`).join(', ')}: ${ran - wrong.length} passed, ${wrong.length} failed`);
  process.exit(wrong.length || !ran ? 1 : 0);
}
