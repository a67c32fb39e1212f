// The page: what its buttons, keys and links do.
import { ANSWERS, Engine, SIZES } from '../quasarhorn.js';
import { draw } from './diagram.js';
import { fromLink, linkOf, numbersOf, savedText } from './link.js';
import { $, log, make, showAgreement, showLines, showState, showVerdict } from './panes.js';
import { showPlan } from './plan.js';
import { SAMPLES } from './samples.js';
import { Session } from './session.js';
import { measure } from './speed.js';
import { Words } from './words.js';

const OWN = 'own', K = 1; // the choice "your own chart"; which sample is chart K
let engine, session = null, words = null, picture = null, planView = null;

// ---- numbers that the visitor types

const misuse = (text) => ({ answer: { done: false, number: '–', place: 0, words: text } });
// A field's number; what is no 32-bit integer never reaches the engine, which takes none.
function typed(id) {
  const n = $(id).value.trim() === '' ? NaN : Number($(id).value);
  if (n !== (n | 0)) { log('Call', misuse(`${$(id).labels[0].textContent.trim()} is no 32-bit whole number`), words); return null; }
  return n;
}
const roomOf = (id, most) => Math.max(0, Math.min(most, Math.trunc(Number($(id).value)) || 0));
const room = () => ({ room: roomOf('room', 300000) });

// ---- calls

function show(result, started = false) {
  const trace = result?.trace ?? [], taken = new Set(trace.filter((e) => e[0] === 1).map((e) => e[1]));
  showState(session, words, new Set(trace.filter((e) => e[0] === 4).map((e) => e[1])), SIZES.queue);
  showAgreement(session);
  picture.light(session.widget, taken);
  planView.mark(started, taken);
}
const ready = () => { if (!session) log('Call', misuse('no chart is read'), words); return session !== null; };
const cap = (s) => s.charAt(0).toUpperCase() + s.slice(1);
const withArgument = (argument) => (argument ? ` with ${argument}` : '');

function start() { if (!ready()) return; const r = session.start(room()); log('Start', r, words); show(r, r.answer.done); }
function run(title = 'Run') {
  if (!ready()) return;
  const r = session.run(room());
  // where the event was posted just before, it is what goes on waiting
  log(r.answer.done || title === 'Run' ? title : `${title}: run`, title === 'Run' ? r : { ...r, refusal: 'it goes on waiting' }, words);
  show(r);
}
function discard() { if (!ready()) return; const answer = session.discard(); log('Discard', { answer }, words, 'note'); show(); }
function post(event, argument, quiet = false) {
  const answer = session.post(event, argument);
  if (!quiet || !answer.done) log(`Post of ${words.event(event)}${withArgument(argument)}`, { answer }, words, 'note');
  show();
  return answer.done;
}
function send(event) {
  const argument = ready() ? typed('argument') : null;
  if (argument === null) return;
  if (!$('atonce').checked) post(event, argument);
  else if (post(event, argument, true)) run(`${cap(words.event(event))}${argument ? ` · ${argument}` : ''}`);
}

// ---- charts

function read(thenStart) {
  const before = session?.save() ?? null, { answer, chart } = engine.read($('text').value);
  showVerdict(answer, chart, session !== null);
  if (!answer.done) { log('Chart', { answer }, words); return false; }
  session?.dispose();
  session = new Session(chart);
  const keep = $('keep').checked && before;
  if (keep) session.restore(before);
  redraw();
  if (thenStart && !keep) start();
  else { log('Chart read', { answer }, words, 'note'); show(); }
  return true;
}
function redraw() {
  const { chart } = session;
  words = new Words(chart, $('labels').value);
  picture = draw($('diagram'), chart, words);
  planView = showPlan($('plan'), $('counts'), session.plan, words);
  $('events').replaceChildren(...Array.from({ length: chart.events }, (_, i) => {
    const b = make('button');
    b.type = 'button'; b.dataset.event = i + 1;
    b.setAttribute('aria-label', words.event(i + 1) === `event ${i + 1}` ? `event ${i + 1}` : `event ${i + 1}: ${words.event(i + 1)}`);
    b.append(make('kbd', '', i + 1), words.event(i + 1));
    b.addEventListener('click', () => send(i + 1));
    return b;
  }));
  if (!chart.events) $('events').replaceChildren(make('span', 'chip empty', 'this chart has no events'));
}
function take({ text, labels }, choice) {
  $('text').value = text; $('labels').value = labels; $('sample').value = choice;
  showLines();
  return engine ? read(true) : false;
}

// ---- limits, saved widgets, plans as numbers

function writeText() {
  if (!ready()) return;
  const { answer, text } = session.chart.write({ room: roomOf('textroom', SIZES.text) });
  log('Write', { answer }, words, 'note');
  if (answer.done) { $('text').value = text; showLines(); }
}
function compile() {
  if (!ready()) return;
  const { answer, plan } = session.chart.compile({ room: roomOf('planroom', SIZES.plan) });
  log(plan ? `Compiled into ${plan.length.toLocaleString('en')} numbers` : 'Compile', { answer }, words, 'note');
  plan?.dispose();
}
function listed(id, count) { // the numbers of a text area, or null and words in the trace
  try {
    const list = numbersOf($(id).value);
    if (count && list.length !== count) throw new RangeError(`a widget has ${count} numbers, these are ${list.length}`);
    return list;
  } catch (e) { log('Numbers', misuse(e.message), words); return null; }
}
function save() { if (ready()) { $('saved').value = savedText(session.save()); log('Saved', { answer: { done: true, number: 0, place: 0 } }, words, 'note'); } }
function restore() {
  const list = ready() ? listed('saved', SIZES.widget) : null;
  if (!list) return;
  session.restore(list);
  log('Restored: the next call examines it', { answer: { done: true, number: 0, place: 0 } }, words, 'note');
  show();
}
function examine() {
  const list = listed('plannumbers');
  if (!list) return;
  const { answer, plan } = engine.plan(list);
  log(plan ? `A plan of ${plan.length.toLocaleString('en')} numbers` : 'Plan', { answer }, words, 'note');
  plan?.dispose();
}

// ---- links

function share() {
  $('link').value = linkOf({ text: $('text').value, labels: $('labels').value, calls: session?.calls ?? [] }, location.href);
  $('shared').hidden = false; $('copied').textContent = '';
  $('link').focus(); $('link').select();
}
async function copy() {
  try {
    await navigator.clipboard.writeText($('link').value);
    $('copied').textContent = 'copied';
  } catch { $('link').select(); $('copied').textContent = 'press Ctrl+C'; }
}
function follow() { // the link that the page was opened with; true where it carried a chart
  let carried;
  try { carried = fromLink(location.hash); } catch (e) { log('Link', misuse(`this link cannot be read: ${e.message}`), words); return false; }
  if (!carried) return false;
  if (!take(carried, OWN)) return true;
  for (const { kind, event, argument } of carried.calls) {
    if (kind === 'p') { if (!post(event, argument, true)) break; } else if (kind === 'd') discard(); else run();
  }
  return true;
}

// ---- the page

function choose(tab) {
  for (const name of ['text', 'plan']) {
    const on = name === tab;
    $(`tab-${name}`).setAttribute('aria-selected', String(on)); $(`tab-${name}`).tabIndex = on ? 0 : -1; $(`panel-${name}`).hidden = !on;
  }
  if (tab === 'plan') planView?.reveal();
}
async function showSpeed() {
  $('engine').textContent = 'measuring…';
  await new Promise((r) => setTimeout(r, 30));
  const { replay, each, byHand } = measure(engine, SAMPLES[K].text), us = (n) => `${(n / 1000).toFixed(2)} µs`;
  $('engine').textContent = `chart K, an event: ${us(replay)} by replay, ${us(each)} one by one; by hand ${us(byHand)}`;
}
function press(e) { // digits send events, unless something is being typed
  if (e.ctrlKey || e.metaKey || e.altKey || /^(INPUT|TEXTAREA|SELECT)$/.test(e.target.tagName)) return;
  if (/^[1-9]$/.test(e.key) && session && Number(e.key) <= session.chart.events) { e.preventDefault(); send(Number(e.key)); }
}
function postTyped() {
  const event = ready() ? typed('number') : null, argument = event === null ? null : typed('argument');
  if (argument !== null) post(event, argument);
}
const BUTTONS = { read: () => read(true), readonly: () => read(false), start, run: () => run(), discard, post: postTyped, write: writeText, compile, save,
  restore, examine, share, copy,
  ownplan: () => { if (ready()) $('plannumbers').value = session.plan.numbers().join(' '); },
  clear: () => $('trace').replaceChildren(), hide: () => { $('shared').hidden = true; $('share').focus(); },
  measure: showSpeed, 'tab-text': () => choose('text'), 'tab-plan': () => choose('plan') };

function wire() {
  $('sample').replaceChildren(...SAMPLES.map((s, i) => { const o = make('option', '', s.name); o.value = i; return o; }), new Option('Your own chart', OWN));
  for (const [id, act] of Object.entries(BUTTONS)) $(id).addEventListener('click', () => act());
  for (const tab of ['text', 'plan']) $(`tab-${tab}`).addEventListener('keydown', (e) => {
    if (e.key !== 'ArrowLeft' && e.key !== 'ArrowRight') return;
    const other = tab === 'text' ? 'plan' : 'text';
    choose(other); $(`tab-${other}`).focus();
  });
  $('sample').addEventListener('change', () => { if ($('sample').value !== OWN) take(SAMPLES[Number($('sample').value)], $('sample').value); });
  $('text').addEventListener('input', () => { $('sample').value = OWN; showLines(); });
  $('text').addEventListener('keydown', (e) => { // no chart has a space: the space bar writes a tab, and Tab goes on to the next field
    if (e.key !== ' ' || e.ctrlKey) return;
    e.preventDefault();
    document.execCommand('insertText', false, '\t');
  });
  $('text').addEventListener('scroll', () => { $('gutter').scrollTop = $('text').scrollTop; });
  $('labels').addEventListener('change', () => { if (session) { redraw(); show(); } });
  document.addEventListener('keydown', press);
  globalThis.addEventListener('hashchange', follow);
}

wire();
take(SAMPLES[0], 0);
try {
  const began = performance.now(), answer = await fetch(new URL('../quasarhorn.wasm', import.meta.url)), bytes = await answer.arrayBuffer();
  if (!answer.ok) throw new Error(`quasarhorn.wasm: HTTP ${answer.status} (web/build makes it)`);
  engine = await Engine.load(bytes);
  $('engine').textContent = `engine ${(bytes.byteLength / 1024).toFixed(0)} KB · ready in ${(performance.now() - began).toFixed(0)} ms`;
  if (!follow()) take(SAMPLES[0], 0);
  globalThis.quasarhornDemo = { engine, words: ANSWERS, measure: (n) => measure(engine, SAMPLES[K].text, n), get session() { return session; } };
  document.body.dataset.ready = 'yes';
} catch (e) {
  $('engine').textContent = `the engine did not load: ${e.message}`;
  document.body.dataset.ready = 'no';
}
