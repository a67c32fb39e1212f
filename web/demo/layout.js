// The state tree as nested boxes: where each stands. Sizes go from the leaves up; children stand in rows.
const PAD = 18, HEAD = 34, GAP_X = 74, GAP_Y = 52, LEAF_W = 104;
export const LEAF_H = 46;
const RATIOS = [0.4, 0.7, 1, 1.4, 1.9, 2.6, 4];

export const inPlace = (chart, n) => chart.transitions.filter((t) => t.source === n && !t.target);
// Guards are long: more room at the sides where children are joined by guarded transitions.
function guarded(chart, n) {
  const child = (s) => chart.states[s].parent === n;
  return chart.transitions.some((t) => t.guard && t.target && child(t.source) && child(t.target.state));
}

function inRows(parts, gapX, gapY, ratio) {
  const area = parts.reduce((sum, p) => sum + (p.w + gapX) * (p.h + gapY), 0);
  const limit = Math.max(...parts.map((p) => p.w), Math.sqrt(area * ratio)), rows = [[]];
  let across = 0;
  for (const p of parts) {
    if (across > 0 && across + p.w > limit) { rows.push([]); across = 0; }
    rows.at(-1).push(p);
    across += p.w + gapX;
  }
  return rows;
}
function measure(chart, n, label, boxes, ratio) {
  const s = chart.states[n], box = { n, x: 0, y: 0, w: 0, h: 0 }, all = s.kind === 'a';
  const pills = inPlace(chart, n).length, title = Math.max(LEAF_W, label(n).length * 7.6 + (s.children.length ? 130 : 46), pills * 44 + 24);
  boxes[n] = box;
  if (s.children.length === 0) { box.w = title; box.h = LEAF_H + (pills ? 20 : 0); return box; }
  const side = all ? 0 : guarded(chart, n) ? 56 : 8, gapX = all ? 22 : GAP_X, gapY = all ? 22 : GAP_Y;
  const parts = s.children.map((c) => measure(chart, c, label, boxes, ratio)), rows = inRows(parts, gapX, gapY, ratio);
  // components below each other are equally wide
  if (all && rows.length > 1 && rows.every((r) => r.length === 1)) { const widest = Math.max(...parts.map((p) => p.w)); for (const p of parts) p.w = widest; }
  let y = HEAD + (all ? 6 : 20), w = title;
  for (const row of rows) {
    const tallest = Math.max(...row.map((p) => p.h));
    let x = PAD + side;
    for (const p of row) {
      p.x = x; p.y = y + (all ? 0 : (tallest - p.h) / 2);
      if (all) p.h = tallest;
      x += p.w + gapX;
    }
    w = Math.max(w, x - gapX + PAD + side);
    y += tallest + gapY;
  }
  box.w = w; box.h = y - gapY + PAD + (pills ? 14 : 0);
  return box;
}

// Of a few ways to break the rows, the one that fills the pane best.
export function layout(chart, label, width, height) {
  let boxes = null, best = 0;
  for (const ratio of RATIOS) {
    const tried = [], all = measure(chart, 0, label, tried, ratio), scale = Math.min(width / all.w, height / all.h);
    if (scale > best) [best, boxes] = [scale, tried];
  }
  for (const s of chart.states) if (s.parent !== null) { boxes[s.number].x += boxes[s.parent].x; boxes[s.number].y += boxes[s.parent].y; }
  return boxes;
}

// ---- arrows

export const within = (chart, inner, outer) => { for (let n = inner; n !== null; n = chart.states[n].parent) if (n === outer) return true; return false; };
const clamp = (v, low, high) => Math.min(Math.max(v, low), high);
const middle = (b) => [b.x + b.w / 2, b.y + b.h / 2];
// The point on the border of a box on the way from a point inside to one outside.
function leave(b, [x, y], [px, py]) {
  const dx = px - x, dy = py - y;
  let t = Infinity;
  if (dx) t = Math.min(t, ((dx > 0 ? b.x + b.w : b.x) - x) / dx);
  if (dy) t = Math.min(t, ((dy > 0 ? b.y + b.h : b.y) - y) / dy);
  return Number.isFinite(t) ? [x + dx * t, y + dy * t] : [x, y];
}
// Both ends of an arrow.
export function ends(chart, { source, target }, from, to) {
  const f = middle(from), t = middle(to);
  if (within(chart, target.state, source)) { const a = [from.x, t[1]]; return [a, leave(to, t, a)]; }
  if (within(chart, source, target.state) && !target.history) { const z = [to.x, f[1] + 8]; return [leave(from, f, z), z]; }
  // towards the nearest stretch of the other box, so that a small box meets a large one head on
  const near = (b, p) => [clamp(p[0], b.x + 14, Math.max(b.x + 14, b.x + b.w - 14)), clamp(p[1], b.y + 12, Math.max(b.y + 12, b.y + b.h - 12))];
  const toNear = near(to, f), fromNear = near(from, t);
  return [leave(from, fromNear, toNear), leave(to, toNear, fromNear)];
}
// An arrow that bends to one side, and where its words stand; twins between the same two boxes bend further.
export function bent([a, z], twin, wordsLength) {
  const mx = (a[0] + z[0]) / 2, my = (a[1] + z[1]) / 2, dx = z[0] - a[0], dy = z[1] - a[1], len = Math.hypot(dx, dy) || 1;
  const bend = Math.min(26, 10 + len * 0.22) + 40 * twin, nx = dy / len, ny = -dx / len, cx = mx + nx * bend, cy = my + ny * bend;
  const aside = wordsLength > 3 ? nx * nx * Math.sign(nx) * (wordsLength * 3.15 - 4) : 0; // wide words stand beside a steep arrow, not on it
  return { d: `M${a[0]} ${a[1]}Q${cx} ${cy} ${z[0]} ${z[1]}`, x: (mx + cx) / 2 + aside, y: (my + cy) / 2 };
}
