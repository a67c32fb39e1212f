// What the page shows of a call and of the widget's state. Everything is put on the page as text, never as markup.
export const $ = (id) => document.getElementById(id);
export function make(name, cls = '', text = null) {
  const e = document.createElement(name);
  if (cls) e.className = cls;
  if (text !== null) e.textContent = text;
  return e;
}
export const counted = ([n, what]) => `${n.toLocaleString('en')} ${what}${n === 1 ? '' : 's'}`;
const MOST_LINES = 33000, MOST_LOGGED = 200, MOST_ENTRIES = 300;

// ---- the trace

function entryLine(entry, words) {
  const [sign, text] = words.entry(entry), line = make('li', `k${entry[0]}`), icon = make('i', '', sign);
  icon.setAttribute('aria-hidden', 'true');
  line.dataset.raw = entry.join(' ');
  line.append(icon, make('span', '', text), make('code', '', entry.join(' ')));
  return line;
}
// A call in the trace: what was called, its answer, its entries in words and in numbers.
export function log(title, { answer, trace = null, refusal = 'nothing changed' }, words, kind = '') {
  const view = $('trace'), item = make('li', answer.done ? kind : 'bad'), head = make('div', 'head'), list = make('ul');
  item.dataset.answer = answer.number; item.dataset.place = answer.place;
  if (!answer.done) head.append(make('span', 'no', answer.number));
  head.append(make('span', '', answer.done ? title : `${title} refused`));
  const note = !answer.done ? refusal : trace ? `${trace.length} ${trace.length === 1 ? 'entry' : 'entries'}` : '';
  head.append(make('small', '', note));
  item.append(head);
  if (!answer.done) item.append(make('div', 'why', answer.words));
  for (const entry of (trace ?? []).slice(0, MOST_ENTRIES)) list.append(entryLine(entry, words));
  if (trace?.length > MOST_ENTRIES) list.append(make('li', '', `and ${trace.length - MOST_ENTRIES} more`));
  if (list.firstChild) item.append(list);
  view.append(item);
  while (view.children.length > MOST_LOGGED) view.firstChild.remove();
  $('log').scrollTop = $('log').scrollHeight;
}

// ---- the state

const SVG = 'http://www.w3.org/2000/svg';
function variable(v, value, words, changed) {
  const box = make('div', `var${changed ? ' changed' : ''}`), bar = make('div', 'bar'), ends = make('small'), shown = make('b', '', value ?? '–');
  const svg = document.createElementNS(SVG, 'svg'), part = document.createElementNS(SVG, 'rect');
  const share = value === null ? 0 : v.high > v.low ? (100 * (value - v.low)) / (v.high - v.low) : 100;
  part.setAttribute('height', '100%'); part.setAttribute('width', `${Math.min(Math.max(share, 0), 100)}%`);
  svg.setAttribute('aria-hidden', 'true');
  svg.append(part); bar.append(svg);
  ends.append(make('span', '', v.low), make('span', '', v.high));
  ends.setAttribute('aria-label', `from ${v.low} to ${v.high}`);
  shown.dataset.variable = v.number;
  box.append(make('span', '', words.variable(v.number)), shown, bar, ends);
  return box;
}
function slot(s, held, words) {
  const chip = make('span', held === null ? 'chip empty' : 'chip');
  chip.dataset.slot = s.number; chip.dataset.held = held ?? '';
  chip.append(`${words.state(s.number)}: `, held === null ? 'empty' : make('b', '', words.state(held)));
  return chip;
}
function place(q, words) {
  if (!q) return make('li');
  const argument = q.argument === 0 ? '' : String(q.argument).length < 4 ? `:${q.argument}` : ':…', item = make('li', 'full', `${q.event}${argument}`);
  item.title = `${words.event(q.event)}, argument ${q.argument}`;
  item.setAttribute('aria-label', item.title);
  return item;
}
const none = (text) => make('span', 'chip empty', text);

export function showState({ chart, widget }, words, changed, size) {
  const live = widget.started, queue = live ? widget.queue : [], owners = chart.states.filter((s) => s.kind === 'o');
  $('variables').replaceChildren(...chart.variables.map((v) => variable(v, live ? widget.value(v.number) : null, words, changed.has(v.number))));
  if (!chart.variables.length) $('variables').replaceChildren(none('this chart has none'));
  $('slots').replaceChildren(...owners.map((s) => slot(s, live ? widget.slot(s.number) : null, words)));
  $('waiting').textContent = `${queue.length} of ${size} waiting`;
  $('queue').replaceChildren(...Array.from({ length: size }, (_, i) => place(queue[i], words)));
  const leaves = chart.states.filter((s) => s.kind === 'b' && live && widget.isActive(s.number)).map((s) => words.state(s.number));
  $('active').textContent = live ? `In: ${leaves.join(', ')}` : 'Not started';
  // an event that some active state listens to stands out
  const heard = new Set(chart.transitions.filter((t) => live && widget.isActive(t.source)).map((t) => t.trigger));
  for (const b of $('events').children) b.classList.toggle('off', !heard.has(Number(b.dataset.event)));
}

const AGREEMENT = {
  alike: (n) => `chart and plan agree on ${n === 1 ? 'this call' : `all ${n.toLocaleString('en')} calls`}`,
  foreign: () => 'the chart finds this restored state foreign (6); the plan tests less of it',
  apart: () => 'CHART AND PLAN DIFFER on this call',
};
export function showAgreement({ verdict, compared }) {
  const text = compared ? AGREEMENT[verdict](compared) : 'chart and plan are compared on each call';
  $('agree').className = `agree ${verdict}`;
  $('agree').dataset.verdict = verdict; $('agree').dataset.calls = compared;
  $('agree').textContent = text;
}

// ---- the chart's text: line numbers, the faulty line marked

export function showLines(bad = 0) {
  const text = $('text').value, lines = Math.min(text.split('\n').length, MOST_LINES), gutter = $('gutter');
  const span = (from, to) => Array.from({ length: Math.max(0, to - from) }, (_, i) => from + i).join('\n');
  $('size').textContent = `${new TextEncoder().encode(text).length.toLocaleString('en')} bytes`;
  if (bad > 0 && bad <= lines) gutter.replaceChildren(span(1, bad) + (bad > 1 ? '\n' : ''), make('i', 'bad', bad), span(bad + 1, lines + 1));
  else gutter.textContent = span(1, lines + 1);
  if (bad) $('text').scrollTop = Math.max(0, (bad - 3) * 19);
  gutter.scrollTop = $('text').scrollTop;
}
// Read or refused; old: a chart that was read before is still shown.
export function showVerdict(answer, chart, old) {
  const verdict = $('verdict'), line = answer.number === 1 || (answer.number === 2 && answer.place > 0) ? answer.place : 0;
  showLines(line);
  verdict.className = answer.done ? 'verdict' : 'verdict bad';
  verdict.dataset.answer = answer.number; verdict.dataset.place = answer.place;
  $('text').setAttribute('aria-invalid', String(!answer.done));
  $('diagram').classList.toggle('old', !answer.done);
  if (!answer.done) {
    verdict.replaceChildren(make('b', '', `Refused, ${answer.number}. `), answer.words, ...(old ? [make('small', '', 'The chart read before goes on.')] : []));
    return;
  }
  const counts = [[chart.states.length, 'state'], [chart.variables.length, 'variable'], [chart.events, 'event'], [chart.transitions.length, 'transition'],
    [chart.actions.length, 'action']];
  verdict.textContent = counts.map(counted).join(', ');
}
