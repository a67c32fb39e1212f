// Words for the numbers of a chart: labels that the visitor gives, and plain words where there is none.
export class Words {
  #labels = new Map();
  constructor(chart, text) {
    this.chart = chart;
    for (const line of text.split('\n')) {
      const m = /^([sevo]) (\d{1,10}) (.+)$/.exec(line.trim());
      if (m) this.#labels.set(`${m[1]} ${Number(m[2])}`, m[3].slice(0, 40));
    }
  }
  #label(kind, n) { return this.#labels.get(`${kind} ${n}`); }
  named(n) { return this.#label('s', n) !== undefined; }
  state(n) { return this.#label('s', n) ?? `state ${n}`; }
  event(n) { return this.#label('e', n) ?? `event ${n}`; }
  variable(n) { return this.#label('v', n) ?? `variable ${n}`; }
  short(n) { return this.#label('v', n)?.split(/[ ,]/)[0] ?? `v${n}`; }
  told(n) { const word = this.#label('o', n); return word ? `${n}: ${word}` : String(n); }
  guard(g) { return `[${this.short(g.variable)} ${g.sign} ${g.constant}]`; }

  // What sets a transition off.
  cause({ trigger, guard }) {
    if (trigger === 0) return guard ? this.guard(guard) : 'at once';
    return this.event(trigger) + (guard ? ` ${this.guard(guard)}` : '');
  }
  // The same, short enough for an arrow.
  pill({ trigger, guard }) {
    if (!guard) return trigger ? String(trigger) : 'ε';
    return (trigger ? `${trigger} ` : '') + this.guard(guard);
  }
  transition(n) {
    const { source, target } = this.chart.transitions[n];
    if (!target) return `${this.state(source)} reacts in place`;
    return `${this.state(source)} → ${target.history ? 'history of ' : ''}${this.state(target.state)}`;
  }
  // An entry of a trace: a sign for the eye, and words.
  entry([kind, a, b]) {
    switch (kind) {
      case 1: return ['⇒', `transition ${a}: ${this.transition(a)}`];
      case 2: return ['↑', `leaves ${this.state(a)}`];
      case 3: return ['↓', `enters ${this.state(a)}`];
      case 4: return ['=', `${this.variable(a)} is now ${b}`];
      case 5: return ['→', `sends ${this.event(a)} with ${b}`];
      default: return ['✉', `tells the host ${this.told(a)}`];
    }
  }
  // An instruction of a plan.
  instruction(i) {
    switch (i.name) {
      case 'IN': return `enter ${this.state(i.state)}`;
      case 'OUT': return `leave ${this.state(i.state)}${i.owner < 0 ? '' : `, kept in ${this.state(i.owner)}`}`;
      case 'SKIPOUT': return `${this.state(i.state)} not active: skip ${i.skip}`;
      case 'SKIPEMPTY': return `slot of ${this.state(i.state)} empty: skip ${i.skip}`;
      case 'SKIPFULL': return `slot of ${this.state(i.state)} filled: skip ${i.skip}`;
      case 'SKIPNOT': return `slot of ${this.state(i.state)} not ${this.state(i.child)}: skip ${i.skip}`;
      case 'SET': return `${this.short(i.variable)} := ${i.constant}`;
      case 'ADD': return `${this.short(i.variable)} += ${i.constant}`;
      case 'TAKE': return `${this.short(i.variable)} := argument`;
      case 'SEND': return `send ${this.event(i.event)} with ${i.argument}`;
      default: return `tell ${this.told(i.number)}`;
    }
  }
}
