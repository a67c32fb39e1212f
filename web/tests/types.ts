// The types, used as a page would; `tsc` must accept this file, and must refuse each line marked as an error.
import { Answer, Called, Chart, Engine, Entry, Plan, Replayed, SIZES, Widget } from '../quasarhorn.js';

export async function page(text: string): Promise<number> {
  const engine: Engine = await Engine.load(new URL('https://example.org/quasarhorn.wasm'));
  const { answer, chart } = engine.read(text);
  if (!chart) { const words: string = answer.words; return words.length + answer.place; }
  const { plan } = chart.compile({ room: SIZES.plan });
  const widget: Widget = chart.widget(), other: Widget = chart.widget({ over: 'chart' }), third: Widget | undefined = plan?.widget();
  const started: Called = widget.start(), sent: Called = widget.send(1, 250, { room: 600 }), posted: Answer = other.post(2);
  const replayed: Replayed = widget.replay(Int32Array.of(1, 0, 2, 0));
  const first: Entry | undefined = sent.trace[0];
  const told: number[] = sent.trace.filter(([kind]) => kind === 6).map(([, number]) => number);
  widget.restore(widget.save());
  const heads: number = plan ? plan.heads.length + plan.instruction(0).code + (plan.instruction(0).state ?? 0) : 0;
  const of: Chart | Plan = widget.runs;
  if (posted.number === 9 && third) third.discard();
  chart.dispose();
  return replayed.done + (first ? first[1] : 0) + told.length + heads + (started.answer.done ? 1 : 0) + widget.queue.length + (of === chart ? 1 : 0);
}
export async function misuse(engine: Engine): Promise<void> {
  // @ts-expect-error: no chart without a text
  engine.read();
  // @ts-expect-error: widgets are made by charts and plans
  new Widget();
  const { chart } = engine.read('');
  // @ts-expect-error: a refused chart is null
  chart.widget();
  // @ts-expect-error: over the plan or over the chart
  chart?.widget({ over: 'both' });
  // @ts-expect-error: an event is a number
  chart?.widget().post('1');
  // @ts-expect-error: no answer has this number
  if (chart?.widget().post(1).number === 15) return;
}
