// The plan beside the chart: its heads in choosing order, each with its block of instructions; what just ran is marked and opened.
import { counted, make } from './panes.js';

const MOST_LINES = 400; // of one block, on the page

// The instructions of a block, put on the page when the block is opened.
function fill(list, plan, words, from, count) {
  for (let i = from; i < from + Math.min(count, MOST_LINES); i++) {
    const one = plan.instruction(i), line = make('li', one.name.startsWith('SKIP') ? 'skip' : '');
    line.append(make('span', 'at', i), make('b', '', one.name), make('span', '', words.instruction(one)));
    list.append(line);
  }
  if (count > MOST_LINES) list.append(make('li', 'more', `and ${(count - MOST_LINES).toLocaleString('en')} more`));
}
function block(plan, words, title, note, from, count, data) {
  const box = make('details', 'block'), head = make('summary'), list = make('ol');
  Object.assign(box.dataset, data);
  head.append(make('b', '', title), make('span', '', note), make('small', '', `${from}–${from + count - 1}`));
  if (!count) head.lastChild.textContent = 'empty';
  box.append(head, list);
  const open = () => { if (!list.firstChild) fill(list, plan, words, from, count); };
  box.addEventListener('toggle', () => { if (box.open) open(); });
  return { box, open };
}

export function showPlan(host, counts, plan, words) {
  const lines = [[plan.states, 'state'], [plan.variables.length, 'variable'], [plan.events, 'event'], [plan.heads.length, 'head'],
    [plan.instructions, 'instruction'], [plan.length, 'number']];
  counts.textContent = lines.map(counted).join(' · ');
  const start = block(plan, words, 'Start', 'the root and its defaults', 0, plan.start, { block: 'start' });
  const blocks = plan.heads.map((h) => [h.transition, block(plan, words, `T${h.transition}`,
    `${words.state(h.source)}: ${words.cause(h)} · span ${h.first}–${h.last}`, h.start, h.length, { block: h.transition })]);
  host.replaceChildren(start.box, ...blocks.map(([, b]) => b.box));
  const byTransition = new Map(blocks);
  const inOrder = [start, ...byTransition.values()];
  return {
    // Brings the first block that ran into view.
    reveal() {
      const first = inOrder.find((b) => b.box.classList.contains('ran'));
      if (first && host.clientHeight) host.scrollTop += first.box.getBoundingClientRect().top - host.getBoundingClientRect().top - 4;
    },
    // started: the start block ran; taken: the transitions whose blocks ran.
    mark(started, taken) {
      const ran = new Set([...taken].map((t) => byTransition.get(t)));
      if (started) ran.add(start);
      for (const b of inOrder) {
        const on = ran.has(b);
        b.box.classList.toggle('ran', on);
        if (on) { b.open(); b.box.open = true; } else if (ran.size) b.box.open = false;
      }
      this.reveal();
    },
  };
}
