// A widget over its plan, and a twin over its chart: every call is made on both, and what they give is compared.
const same = (a, b) => JSON.stringify(a) === JSON.stringify(b);
const numberOf = (result) => (result.answer ?? result).number;

export class Session {
  calls = []; // accepted calls since the start, for a link
  compared = 0;
  verdict = 'alike'; // or foreign: a restored state that only the chart refuses; or apart
  constructor(chart) {
    this.chart = chart;
    this.plan = chart.compile().plan;
    this.widget = this.plan.widget();
    this.twin = chart.widget({ over: 'chart' });
  }
  #both(call) {
    const result = call(this.widget), again = call(this.twin);
    this.compared++;
    if (this.verdict !== 'foreign' || numberOf(again) !== 6) {
      if (same(result, again) && same([...this.widget.save()], [...this.twin.save()])) this.verdict = 'alike';
      else this.verdict = numberOf(again) === 6 ? 'foreign' : 'apart';
    }
    return result;
  }
  start(options) {
    const result = this.#both((w) => w.start(options));
    if (result.answer.done) this.calls = [];
    return result;
  }
  post(event, argument) {
    const answer = this.#both((w) => w.post(event, argument));
    if (answer.done) this.calls.push(`p${event}.${argument}`);
    return answer;
  }
  run(options) {
    const result = this.#both((w) => w.run(options));
    if (result.answer.done) this.calls.push('r');
    return result;
  }
  discard() {
    const answer = this.#both((w) => w.discard());
    if (answer.done) this.calls.push('d');
    return answer;
  }
  save() { return this.widget.save(); }
  restore(numbers) { this.widget.restore(numbers); this.twin.restore(numbers); this.verdict = 'alike'; }
  dispose() { this.widget.dispose(); this.twin.dispose(); this.plan.dispose(); this.chart.dispose(); }
}
