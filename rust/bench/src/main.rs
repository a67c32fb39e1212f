//! bench [--events N]: what an event costs, posted and run: by two interpreters (one walks the tree, one is written for speed alone), by the
//! engine's calls over the chart and over its plan, and by one replay of the plan. All in one run on one machine, since only the ratios say
//! something.

use bench::examine::well_formed;
use bench::fast;
use bench::interpreter::Interpreter;
use bench::walker;
use compare::charts::{self, Shape};
use compare::dice::Dice;
use oracle::chart::{Act, Chart};
use oracle::{plan, text, value};
use quasarhorn::numbers;

const K: &str = "S\t0\t-\to\t1\nS\t1\t0\tb\t-\nS\t2\t0\to\t3\nS\t3\t2\tb\t-\nS\t4\t2\tb\t-\nV\t0\t-100\t100\t0\nE\t2\n\
T\t0\t1\t1\t-\t-\t-\th2\nT\t1\t3\t2\t-\t-\t-\t4\nT\t2\t2\t1\t-\t-\t-\t1\nA\te\t4\to\t7\t-\nA\tx\t2\ta\t0\t60\nA\td\t2\to\t9\t-\n";

/// What is run, in every form.
struct Subject {
    walker: walker::Chart,
    fast: fast::Chart,
    value: Vec<i32>,
    plan: Vec<i32>,
    /// Pairs of event and argument.
    events: Vec<i32>,
    room: usize,
    /// Nanoseconds that one way may take for its events; it then makes fewer.
    budget: f64,
}

/// A way that takes less for its events, in nanoseconds, takes more turns: so many times more.
const SHORT: f64 = 0.2e9;
const MOST_OFTEN: usize = 5;

/// How an event is run.
#[derive(Clone, Copy, PartialEq, Eq)]
enum Way {
    Walked,
    WalkedTested,
    WalkedSameTests,
    Fast,
    FastSameTests,
    ByChart,
    ByPlan,
    Replay,
}

const WAYS: [(Way, &str); 8] = [
    (Way::Walked, "tree walker, no tests, nothing cleared"),
    (Way::WalkedTested, "tree walker, test for 6 at each call, trace cleared"),
    (Way::WalkedSameTests, "tree walker, a plan examined and test for 6 at each call, trace cleared"),
    (Way::Fast, "interpreter on 64-bit sets, ways worked out once, no tests, nothing cleared"),
    (Way::FastSameTests, "interpreter on 64-bit sets, a plan examined and test for 6 at each call, trace cleared"),
    (Way::ByChart, "chart calls: rules checked and test for 6 at each call, trace cleared"),
    (Way::ByPlan, "plan calls: plan examined and test for 6 at each call, trace cleared"),
    (Way::Replay, "replay of the plan: examined and tested once, trace cleared"),
];

impl Subject {
    fn new(chart: &Chart, events: Vec<i32>, room: usize, budget: f64) -> Subject {
        let plan = plan::numbers(&plan::plan(chart)).iter().map(|&n| n as i32).collect();
        let (walker, fast) = (walker::Chart::new(chart), fast::Chart::new(chart));
        Subject { walker, fast, value: value::numbers(chart), plan, events, room, budget }
    }

    /// Starts a widget and runs every event: nanoseconds an event, and the widget's numbers afterwards.
    fn time(&self, way: Way, events: &[i32]) -> (f64, Vec<i32>) {
        match way {
            Way::Walked => self.interpreted::<_, false, false>(&self.walker, events),
            Way::WalkedTested => self.interpreted::<_, true, false>(&self.walker, events),
            Way::WalkedSameTests => self.interpreted::<_, true, true>(&self.walker, events),
            Way::Fast => self.interpreted::<_, false, false>(&self.fast, events),
            Way::FastSameTests => self.interpreted::<_, true, true>(&self.fast, events),
            Way::ByChart | Way::ByPlan | Way::Replay => self.by_engine(way, events),
        }
    }

    /// By an interpreter; with all tests of a plan call, a plan's numbers are examined too.
    fn interpreted<I: Interpreter, const TESTS: bool, const EXAMINES: bool>(&self, chart: &I, events: &[i32]) -> (f64, Vec<i32>) {
        let mut trace = vec![0; self.room];
        let mut widget = I::unstarted();
        assert_eq!(chart.start::<true>(&mut widget, &mut trace).0, 0);
        let examine = || i32::from(EXAMINES && !well_formed(&self.plan));
        let ns = timed(events, || {
            let mut refused = 0;
            for e in events.chunks_exact(2) {
                refused += examine() + chart.post::<TESTS>(&mut widget, e[0], e[1]);
                refused += examine() + chart.run::<TESTS, TESTS>(&mut widget, &mut trace).0;
            }
            refused
        });
        (ns, I::numbers(&widget))
    }

    fn by_engine(&self, way: Way, events: &[i32]) -> (f64, Vec<i32>) {
        let mut trace = vec![0; self.room];
        let mut widget = vec![0; numbers::WIDGET];
        assert_eq!(numbers::start(&self.value, &mut widget, &mut trace).answer, 0);
        let ns = timed(events, || {
            let mut refused = 0;
            match way {
                Way::ByChart => events.chunks_exact(2).for_each(|e| {
                    refused += numbers::post(&self.value, &mut widget, e[0], e[1]).answer;
                    refused += numbers::run(&self.value, &mut widget, &mut trace).answer;
                }),
                Way::ByPlan => events.chunks_exact(2).for_each(|e| {
                    refused += numbers::plan_post(&self.plan, &mut widget, e[0], e[1]).answer;
                    refused += numbers::plan_run(&self.plan, &mut widget, &mut trace).answer;
                }),
                _ => refused += numbers::plan_replay(&self.plan, &mut widget, events, &mut trace).0.answer,
            }
            refused
        });
        (ns, widget)
    }

    /// Nanoseconds of examining the plan once, by the engine and by the interpreters' own test.
    fn examining(&self) -> (f64, f64) {
        let turns = vec![0; 2 * (2_000_000 / self.plan.len()).max(20)];
        let best = |examine: &dyn Fn() -> i32| {
            let all = || turns.chunks_exact(2).map(|_| examine()).sum();
            (0..5).map(|_| timed(&turns, all)).fold(f64::MAX, f64::min)
        };
        (best(&|| numbers::examine(&self.plan).answer), best(&|| i32::from(!well_formed(std::hint::black_box(&self.plan)))))
    }

    /// As many of the events as a way can do without taking too long.
    fn affordable(&self, way: Way) -> &[i32] {
        let (ns, _) = self.time(way, &self.events[..self.events.len().min(600)]);
        let count = (self.budget / ns) as usize;
        &self.events[..self.events.len().min(2 * count.max(300))]
    }

    /// A line for each way, and the times in their order. The ways take turns, at least three, and the best counts.
    fn table(&self, title: &str) -> Vec<f64> {
        println!("\n{title}; {} numbers lent for the trace", self.room);
        let ways: Vec<Way> = WAYS.iter().map(|w| w.0).filter(|w| *w != Way::Replay || numbers::HAS_REPLAY).collect();
        let events: Vec<&[i32]> = ways.iter().map(|w| self.affordable(*w)).collect();
        let ends: Vec<Vec<i32>> = events.iter().map(|e| self.time(Way::Walked, e).1).collect();
        let mut times = vec![f64::MAX; ways.len()];
        for turn in 0..3 * MOST_OFTEN {
            for (i, way) in ways.iter().enumerate() {
                // a short one is made more often, since others on the machine disturb it more
                let takes = times[i] * events[i].len() as f64 / 2.0;
                if turn < 3 || takes < SHORT {
                    let (ns, widget) = self.time(*way, events[i]);
                    assert_eq!(widget, ends[i], "every way ends in the same widget");
                    times[i] = times[i].min(ns);
                }
            }
        }
        for (i, (_, name)) in WAYS.iter().enumerate() {
            match times.get(i) {
                Some(ns) => println!("  {ns:>10.1} ns  {:>8.2} of the first  {name}", ns / times[0]),
                None => println!("  not in this archive: {name}"),
            }
        }
        times
    }
}

#[repr(C)]
#[derive(Default)]
struct Timespec {
    seconds: i64,
    nanoseconds: i64,
}

extern "C" {
    fn clock_gettime(clock: i32, time: *mut Timespec) -> i32;
}

/// Linux's number for the clock of the processor time that this program has had.
const PROCESS_TIME: i32 = 2;

/// Nanoseconds that this program has had of a processor, so that others on the machine count less.
fn now() -> f64 {
    let mut time = Timespec::default();
    let answer = unsafe { clock_gettime(PROCESS_TIME, &mut time) };
    assert_eq!(answer, 0, "the system tells no processor time");
    time.seconds as f64 * 1e9 + time.nanoseconds as f64
}

/// Runs the events and says how long one took; none may be refused.
fn timed(events: &[i32], mut run: impl FnMut() -> i32) -> f64 {
    let before = now();
    let refused = run();
    let ns = (now() - before) / (events.len() / 2) as f64;
    assert_eq!(refused, 0, "an event was refused");
    ns
}

fn said(goal: &str, ratio: f64, most: f64) {
    let met = if ratio <= most { "met" } else { "NOT met" };
    println!("  goal: {goal} at most {most}: {ratio:.2}, {met}");
}

fn goals(subject: &Subject, times: &[f64], of_replay: f64) {
    let took = |way: Way| WAYS.iter().position(|w| w.0 == way).and_then(|i| times.get(i).copied());
    let ratio = |a: Way, b: Way| took(a).zip(took(b)).map_or(f64::NAN, |(a, b)| a / b);
    let (ours, theirs) = subject.examining();
    println!("  examining the plan once: {ours:.0} ns, the interpreters' own test {theirs:.0} ns");
    said("plan calls, of the tree walker doing the same tests", ratio(Way::ByPlan, Way::WalkedSameTests), 1.2);
    if ours < 1000.0 {
        // of a large plan the examining is nearly all, and what is left after it would be noise
        let apart = took(Way::ByPlan).unwrap_or(f64::NAN) - 2.0 * ours;
        said("plan calls less their examining, of the tree walker with the test for 6", apart / took(Way::WalkedTested).unwrap_or(f64::NAN), 1.2);
    }
    if numbers::HAS_REPLAY {
        said("replay, of the tree walker without tests", ratio(Way::Replay, Way::Walked), of_replay);
        println!("  replay, of the interpreter on 64-bit sets: {:.2}", ratio(Way::Replay, Way::Fast));
    }
}

/// The next chart of 64 states, 128 transitions and 256 actions that takes random events without a refusal, and with something to do:
/// its sends are made tells, or its queue would fill.
fn large(seed: &mut u64, many_events: bool) -> (Chart, Vec<i32>, f64) {
    loop {
        *seed += 1;
        let mut dice = Dice::new(*seed);
        let mut chart = charts::of_shape(&mut dice, Shape::Largest);
        for a in &mut chart.actions {
            if let Act::Send(_, x) = a.act {
                a.act = Act::Tell(x);
            }
        }
        if (chart.events == 32) != many_events || chart.events < 3 {
            continue;
        }
        let events: Vec<i32> = (0..3000).flat_map(|_| [dice.number(1, chart.events) as i32, dice.number(-9, 9) as i32]).collect();
        if let Some(entries) = entries(&chart, &events) {
            if entries >= 10.0 {
                return (chart, events, entries);
            }
        }
    }
}

/// How many entries an event has, where none is refused.
fn entries(chart: &Chart, events: &[i32]) -> Option<f64> {
    let fast = fast::Chart::new(chart);
    let (mut widget, mut trace) = (fast::Widget::unstarted(), vec![0; 3000]);
    if fast.start::<true>(&mut widget, &mut trace).0 != 0 {
        return None;
    }
    let mut all = 0;
    for e in events.chunks_exact(2) {
        let posted = fast.post::<true>(&mut widget, e[0], e[1]);
        let (answer, entries) = fast.run::<true, true>(&mut widget, &mut trace);
        if posted != 0 || answer != 0 {
            return None;
        }
        all += entries;
    }
    Some(all as f64 / (events.len() / 2) as f64)
}

fn main() {
    let words: Vec<String> = std::env::args().skip(1).collect();
    let count = match words.iter().map(String::as_str).collect::<Vec<_>>()[..] {
        [] => 1_000_000,
        ["--events", n] => n.parse().unwrap_or(1_000_000),
        _ => {
            eprintln!("bench [--events N]");
            std::process::exit(2)
        }
    };
    println!("Nanoseconds an event, posted and run: the best of several turns. Every way ends in the same widget. Each line says which tests are made");
    println!("at each call, and whether the lent trace is cleared past its last entry.");
    let k = text::read(K.as_bytes()).expect("K keeps the rules");
    let events: Vec<i32> = [1, 2, 1].iter().cycle().take(count).flat_map(|&e| [e, 0]).collect();
    for room in [60, 3000] {
        let subject = Subject::new(&k, events.clone(), room, f64::MAX);
        let times = subject.table(&format!("K, {count} events 1, 2, 1"));
        goals(&subject, &times, 0.5);
    }
    let mut seed = 0;
    for many_events in [false, false, true] {
        let (chart, events, entries) = large(&mut seed, many_events);
        let many: Vec<i32> = events.iter().copied().cycle().take(2 * 30_000).collect();
        let subject = Subject::new(&chart, many, 3000, 0.5e9);
        let title = format!(
            "64 states, 128 transitions, 256 actions, {} events (chart {seed}): a plan of {} numbers, {entries:.0} entries an event",
            chart.events,
            subject.plan.len()
        );
        let times = subject.table(&title);
        goals(&subject, &times, 1.0);
    }
}
