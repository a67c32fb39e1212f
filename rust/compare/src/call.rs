//! One call, made by the engine and by the interpreter on the same lent numbers, and all that it gave.

use oracle::host;
use quasarhorn::numbers;

#[derive(Clone, Copy, Debug, PartialEq, Eq)]
pub enum Name {
    Check,
    Read,
    Write,
    Compile,
    Examine,
    Unstarted,
    Start,
    Run,
    Post,
    Discard,
    PlanStart,
    PlanRun,
    PlanPost,
    PlanDiscard,
    PlanReplay,
}

/// A call with all that it is lent; what it does not use is empty.
#[derive(Clone, Debug)]
pub struct Call<'a> {
    pub name: Name,
    /// The chart's numbers, or the plan's.
    pub by: &'a [i32],
    pub text: &'a [u8],
    pub widget: &'a [i32],
    /// How many numbers or bytes are lent for the trace, the chart, the plan or the text.
    pub room: usize,
    pub event: i32,
    pub arg: i32,
    /// Pairs of event and argument, for a replay.
    pub events: &'a [i32],
}

/// All that a call gave.
#[derive(Clone, Debug, PartialEq, Eq)]
pub struct Outcome {
    pub answer: i32,
    pub place: i32,
    pub count: i32,
    /// Events of a replay that were done.
    pub done: i32,
    pub widget: Vec<i32>,
    pub numbers: Vec<i32>,
    pub bytes: Vec<u8>,
}

/// What stands in lent output before a call.
const UNTOUCHED: i32 = 0x5a5a_5a5a;
const UNTOUCHED_BYTE: u8 = 0x5a;
/// Past each lent slice so many places must stay as they were.
const BEYOND: usize = 4;

/// What a call is lent, with some places past each slice that it may change.
struct Lent {
    widget: Vec<i32>,
    numbers: Vec<i32>,
    bytes: Vec<u8>,
    widget_length: usize,
    room: usize,
}

impl Lent {
    fn of(call: &Call) -> Lent {
        let in_bytes = call.name == Name::Write;
        let (numbers, bytes) = if in_bytes { (0, call.room) } else { (call.room, 0) };
        let mut widget = call.widget.to_vec();
        widget.extend([UNTOUCHED; BEYOND]);
        Lent {
            widget,
            numbers: vec![UNTOUCHED; numbers + BEYOND],
            bytes: vec![UNTOUCHED_BYTE; bytes + BEYOND],
            widget_length: call.widget.len(),
            room: call.room,
        }
    }

    fn widget(&mut self) -> &mut [i32] {
        &mut self.widget[..self.widget_length]
    }

    fn bytes(&mut self) -> &mut [u8] {
        &mut self.bytes[..self.room]
    }

    fn numbers(&mut self) -> &mut [i32] {
        &mut self.numbers[..self.room]
    }

    fn both(&mut self) -> (&mut [i32], &mut [i32]) {
        (&mut self.widget[..self.widget_length], &mut self.numbers[..self.room])
    }

    fn outcome(self, report: [i32; 3], done: i32) -> Outcome {
        let [answer, place, count] = report;
        Outcome { answer, place, count, done, widget: self.widget, numbers: self.numbers, bytes: self.bytes }
    }
}

/// Both sides have the same functions, so that a call is spelled once for both.
macro_rules! make {
    ($side:ident, $replay:expr, $call:expr) => {{
        let (c, mut lent, mut done) = ($call, Lent::of($call), 0);
        let r = match c.name {
            Name::Check => $side::check(c.by),
            Name::Read => $side::read(c.text, lent.numbers()),
            Name::Write => $side::write(c.by, lent.bytes()),
            Name::Compile => $side::compile(c.by, lent.numbers()),
            Name::Examine => $side::examine(c.by),
            Name::Unstarted => $side::unstarted(lent.widget()),
            Name::Post => $side::post(c.by, lent.widget(), c.event, c.arg),
            Name::Discard => $side::discard(c.by, lent.widget()),
            Name::PlanPost => $side::plan_post(c.by, lent.widget(), c.event, c.arg),
            Name::PlanDiscard => $side::plan_discard(c.by, lent.widget()),
            Name::Start | Name::Run | Name::PlanStart | Name::PlanRun | Name::PlanReplay => {
                let (widget, trace) = lent.both();
                match c.name {
                    Name::Start => $side::start(c.by, widget, trace),
                    Name::Run => $side::run(c.by, widget, trace),
                    Name::PlanStart => $side::plan_start(c.by, widget, trace),
                    Name::PlanRun => $side::plan_run(c.by, widget, trace),
                    _ => {
                        let (report, events) = $replay(c.by, widget, c.events, trace);
                        done = events;
                        report
                    }
                }
            }
        };
        lent.outcome([r.answer, r.place, r.count], done)
    }};
}

/// The call made by the proved engine.
pub fn by_engine(call: &Call) -> Outcome {
    make!(numbers, numbers::plan_replay, call)
}

/// The call made by the interpreter.
pub fn by_oracle(call: &Call) -> Outcome {
    make!(host, host::plan_replay, call)
}

impl Outcome {
    /// The first thing in which two outcomes differ, in words.
    pub fn difference(&self, other: &Outcome) -> Option<String> {
        let heads = [
            ("answer", self.answer, other.answer),
            ("place", self.place, other.place),
            ("count", self.count, other.count),
            ("events done", self.done, other.done),
        ];
        for (what, a, b) in heads {
            if a != b {
                return Some(format!("{what}: engine {a}, interpreter {b}"));
            }
        }
        first_apart("widget's number", &self.widget, &other.widget)
            .or_else(|| first_apart("number", &self.numbers, &other.numbers))
            .or_else(|| first_apart("byte", &self.bytes, &other.bytes))
    }
}

fn first_apart<T: PartialEq + std::fmt::Display>(what: &str, a: &[T], b: &[T]) -> Option<String> {
    let i = a.iter().zip(b).position(|(x, y)| x != y)?;
    Some(format!("{what} {i}: engine {}, interpreter {}", a[i], b[i]))
}
