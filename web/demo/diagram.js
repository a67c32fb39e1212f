// The state tree drawn: once for a chart, lit after each call.
import { LEAF_H, bent, ends, inPlace, layout } from './layout.js';

const NS = 'http://www.w3.org/2000/svg', MARGIN = 6, HISTORY = 9.5;
function make(name, attributes = {}, parent = null, text = null) {
  const e = document.createElementNS(NS, name);
  for (const [k, v] of Object.entries(attributes)) e.setAttribute(k, v);
  if (text !== null) e.textContent = text;
  parent?.append(e);
  return e;
}

function drawState(svg, chart, words, s, b, remembered) {
  const leaf = s.children.length === 0, region = s.parent !== null && chart.states[s.parent].kind === 'a';
  const g = make('g', { class: `box ${leaf ? 'leaf' : 'inner'}${region ? ' region' : ''}`, 'data-state': s.number }, svg);
  make('rect', { x: b.x, y: b.y, width: b.w, height: b.h, rx: leaf ? 10 : 14 }, g);
  if (leaf) {
    make('text', { x: b.x + b.w / 2, y: b.y + LEAF_H / 2 + 5, 'text-anchor': 'middle' }, g, words.state(s.number));
    if (words.named(s.number)) make('text', { class: 'no', x: b.x + 8, y: b.y + 14 }, g, String(s.number));
  } else {
    make('text', { x: b.x + (remembered ? 38 : 16), y: b.y + 23 }, g, words.state(s.number));
    const kind = s.kind === 'a' ? 'all at once' : 'one of';
    make('text', { class: 'no', x: b.x + b.w - 14, y: b.y + 22, 'text-anchor': 'end' }, g, words.named(s.number) ? `${s.number} · ${kind}` : kind);
  }
  return g;
}
function drawDefault(svg, b) {
  const g = make('g', { class: 'init' }, svg), x = b.x + 18;
  make('circle', { cx: x, cy: b.y - 17, r: 3.6 }, g);
  make('path', { d: `M${x} ${b.y - 13}V${b.y - 1}`, 'marker-end': 'url(#head)' }, g);
}
function drawHistory(svg, n, b) {
  const x = b.x + 20, y = b.y + 19, g = make('g', { class: 'hist', 'data-history': n }, svg);
  make('circle', { cx: x, cy: y, r: HISTORY }, g);
  make('text', { x, y: y + 3.8 }, g, 'H');
  return { g, box: { x: x - HISTORY, y: y - HISTORY, w: 2 * HISTORY, h: 2 * HISTORY } };
}
// What sets a transition off, short; the words are in the arrow's title.
function pill(g, text, y, at) {
  const w = Math.max(18, text.length * 6.3 + 10), left = at.left ?? at.middle - w / 2;
  make('rect', { x: left, y: y - 8.5, width: w, height: 17, rx: 8.5 }, g);
  make('text', { x: left + w / 2, y: y + 4 }, g, text);
  return w;
}
function drawArrow(layer, chart, words, t, from, to, twin) {
  const g = make('g', { class: 'arrow', 'data-transition': t.number }, layer), text = words.pill(t);
  let way;
  if (t.source === t.target.state && !t.target.history) {
    const x = from.x + from.w - 20 - 16 * twin, y = from.y;
    way = { d: `M${x - 14} ${y}C${x - 18} ${y - 28} ${x + 14} ${y - 28} ${x + 8} ${y}`, x, y: y - 24 };
  } else way = bent(ends(chart, t, from, to), twin, t.guard ? text.length : 0);
  make('path', { d: way.d, 'marker-end': 'url(#head)' }, g);
  pill(g, text, way.y, { middle: way.x });
  make('title', {}, g, `transition ${t.number}: ${words.cause(t)}`);
  return g;
}
function drawInPlace(layer, words, list, b, arrows) {
  let x = b.x + 14;
  for (const t of list) {
    const g = make('g', { class: 'arrow place', 'data-transition': t.number }, layer);
    make('text', { class: 'turn', x: x + 4, y: b.y + b.h - 8 }, g, '↻');
    const w = pill(g, words.pill(t), b.y + b.h - 12, { left: x + 12 });
    make('title', {}, g, `transition ${t.number}, in place: ${words.cause(t)}`);
    arrows.set(t.number, g);
    x += w + 24;
  }
}
function drawArrows(svg, chart, words, boxes, histories) {
  const pairs = new Map(), layer = make('g', {}, svg), arrows = new Map();
  for (const t of chart.transitions) {
    if (!t.target) continue;
    const key = [t.source, t.target.state, t.target.history].join(), twin = pairs.get(key) ?? 0;
    pairs.set(key, twin + 1);
    const to = t.target.history ? histories.get(t.target.state).box : boxes[t.target.state];
    arrows.set(t.number, drawArrow(layer, chart, words, t, boxes[t.source], to, twin));
  }
  for (const s of chart.states) drawInPlace(layer, words, inPlace(chart, s.number), boxes[s.number], arrows);
  return { layer, arrows };
}
function drawHeads(svg) {
  const defs = make('defs', {}, svg);
  const look = { viewBox: '0 0 8 8', refX: 7.2, refY: 4, markerWidth: 9, markerHeight: 9, orient: 'auto', markerUnits: 'userSpaceOnUse' };
  for (const id of ['head', 'head-fired']) make('path', { d: 'M0 0 8 4 0 8z' }, make('marker', { id, ...look }, defs));
}

export function draw(host, chart, words) {
  const boxes = layout(chart, (n) => words.state(n), Math.max(host.clientWidth, 320), Math.max(host.clientHeight, 320)), all = boxes[0];
  const view = [-MARGIN, -MARGIN, all.w + 2 * MARGIN, all.h + 2 * MARGIN];
  const svg = make('svg', { viewBox: view.join(' '), preserveAspectRatio: 'xMidYMid meet', role: 'img', tabindex: 0, 'aria-label': 'State diagram' });
  svg.style.maxWidth = `${view[2] * 1.5}px`; // a small chart is not blown up past a readable size
  drawHeads(svg);
  const remembered = new Set(chart.transitions.filter((t) => t.target?.history).map((t) => t.target.state)), histories = new Map();
  const groups = chart.states.map((s) => drawState(svg, chart, words, s, boxes[s.number], remembered.has(s.number)));
  for (const s of chart.states) if (s.kind === 'o') drawDefault(svg, boxes[s.default]);
  for (const n of remembered) histories.set(n, drawHistory(svg, n, boxes[n]));
  const { layer, arrows } = drawArrows(svg, chart, words, boxes, histories);
  if (chart.transitions.length > 40) svg.classList.add('busy');
  zoomable(svg, view);
  host.replaceChildren(svg);
  return { light: (widget, fired) => light({ svg, chart, words, groups, histories, layer, arrows }, widget, fired) };
}
function light({ svg, chart, words, groups, histories, layer, arrows }, widget, fired) {
  const on = (n) => widget.started && widget.isActive(n);
  groups.forEach((g, n) => { g.classList.toggle('on', on(n)); g.dataset.active = on(n); });
  for (const [n, { g }] of histories) g.classList.toggle('full', widget.started && widget.slot(n) !== null);
  for (const [n, g] of arrows) {
    const taken = fired.has(n);
    g.classList.toggle('fired', taken);
    g.classList.toggle('near', taken || on(chart.transitions[n].source));
    g.querySelector('path')?.setAttribute('marker-end', taken ? 'url(#head-fired)' : 'url(#head)');
    if (taken) layer.append(g);
  }
  const lit = chart.states.filter((s) => on(s.number)).map((s) => words.state(s.number));
  svg.setAttribute('aria-label', lit.length ? `State diagram. Active: ${lit.join(', ')}` : 'State diagram. The widget is not started');
}

// The wheel or + and - zoom, dragging or the arrows move, a double click or 0 shows all again.
function zoomable(svg, [x0, y0, w0, h0]) {
  let x = x0, y = y0, w = w0, h = h0, held = null;
  const apply = () => svg.setAttribute('viewBox', `${x} ${y} ${w} ${h}`);
  const point = (e) => { const m = svg.getScreenCTM(); return m ? [(e.clientX - m.e) / m.a, (e.clientY - m.f) / m.d] : [x, y]; };
  const zoom = (k, px, py) => {
    if (w * k > w0 * 1.02 || w * k < 120) return;
    x = px - (px - x) * k; y = py - (py - y) * k; w *= k; h *= k;
    apply();
  };
  const all = () => { [x, y, w, h] = [x0, y0, w0, h0]; apply(); };
  svg.addEventListener('wheel', (e) => { e.preventDefault(); zoom(Math.min(Math.max(Math.exp(e.deltaY * 0.0015), 0.5), 2), ...point(e)); }, { passive: false });
  svg.addEventListener('pointerdown', (e) => { held = point(e); svg.setPointerCapture(e.pointerId); });
  svg.addEventListener('pointermove', (e) => { if (!held) return; const [px, py] = point(e); x += held[0] - px; y += held[1] - py; apply(); });
  for (const name of ['pointerup', 'pointercancel']) svg.addEventListener(name, () => { held = null; });
  svg.addEventListener('dblclick', all);
  svg.addEventListener('keydown', (e) => {
    const moves = { ArrowLeft: [-1, 0], ArrowRight: [1, 0], ArrowUp: [0, -1], ArrowDown: [0, 1] };
    if (e.key === '+' || e.key === '=') zoom(0.8, x + w / 2, y + h / 2);
    else if (e.key === '-') zoom(1.25, x + w / 2, y + h / 2);
    else if (e.key === '0') all();
    else if (moves[e.key]) { x += moves[e.key][0] * w * 0.1; y += moves[e.key][1] * h * 0.1; apply(); } else return;
    e.preventDefault();
  });
}
