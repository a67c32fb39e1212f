//! The calls as a host makes them: on lent numbers and bytes (docs/HOST.md), each with an answer, its place and a count. What a refused call
//! was lent for its output is all 0 afterwards; the widget's numbers are then as they were found.

use crate::value::{self, NUMBERS};
use crate::widget::{Done, Widget, QUEUE, STATES, VARIABLES};
use crate::{machine, plan, reaction, refused, text, Refused};

/// How many numbers a widget has: started, active marks, slots, variables, queue length, events with arguments.
pub const WIDGET: usize = 1 + 2 * STATES + VARIABLES + 1 + 2 * QUEUE;

/// What a call says besides what it was lent: the answer, its place, and how many numbers, bytes or entries were written.
#[derive(Clone, Copy, Debug, Default, PartialEq, Eq)]
pub struct Report {
    pub answer: i32,
    pub place: i32,
    pub count: i32,
}

fn report(r: Result<usize, Refused>) -> Report {
    match r {
        Ok(count) => Report { count: count as i32, ..Report::default() },
        Err(r) => Report { answer: r.number as i32, place: r.place as i32, count: 0 },
    }
}

/// Puts what was made at the front of what was lent, 0 after it; nothing but 0 where there was a refusal.
fn fill<T: Copy + Default>(lent: &mut [T], made: Result<Vec<T>, Refused>) -> Report {
    for place in lent.iter_mut() {
        *place = T::default();
    }
    report(made.map(|made| {
        lent[..made.len()].copy_from_slice(&made);
        made.len()
    }))
}

fn fitting<T>(made: Vec<T>, room: usize, number: u32) -> Result<Vec<T>, Refused> {
    if made.len() <= room { Ok(made) } else { refused(number, 0) }
}

fn wide(ns: &[i32]) -> Vec<i64> {
    ns.iter().map(|&n| i64::from(n)).collect()
}

fn narrow(ns: &[i64]) -> Vec<i32> {
    ns.iter().map(|&n| n as i32).collect()
}

// ---- charts and plans

pub fn check(chart: &[i32]) -> Report {
    report(value::checked(chart).map(|_| 0))
}

/// The lines first, then whether there is room for a chart (R0), then R1 to R7.
pub fn read(text: &[u8], chart: &mut [i32]) -> Report {
    let room = chart.len();
    let made = text::lines(text).and_then(|c| {
        if room < NUMBERS {
            return refused(3, 0);
        }
        text::ruled(c).map(|c| value::numbers(&c))
    });
    Report { count: 0, ..fill(chart, made) }
}

pub fn write(chart: &[i32], out: &mut [u8]) -> Report {
    let room = out.len();
    fill(out, value::checked(chart).and_then(|c| fitting(text::write(&c), room, 13)))
}

pub fn compile(chart: &[i32], out: &mut [i32]) -> Report {
    let room = out.len();
    fill(out, value::checked(chart).and_then(|c| fitting(narrow(&plan::numbers(&plan::plan(&c))), room, 4)))
}

pub fn examine(ns: &[i32]) -> Report {
    report(plan::examine(&wide(ns)).map_or(refused(5, 0), |_| Ok(0)))
}

// ---- widgets

/// The widget that numbers state: marks are 0 or 1, and a queue length is not negative.
pub fn widget(ns: &[i32]) -> Option<Widget> {
    let ns = ns.get(..WIDGET)?;
    let mark = |n: i32| if n == 0 || n == 1 { Some(n == 1) } else { None };
    let (marks, rest) = ns[1..].split_at(STATES);
    let (slots, rest) = rest.split_at(STATES);
    let (vars, queue) = rest.split_at(VARIABLES);
    if queue[0] < 0 {
        return None;
    }
    Some(Widget {
        started: mark(ns[0])?,
        active: marks.iter().map(|&n| mark(n)).collect::<Option<_>>()?,
        slots: wide(slots),
        vars: wide(vars),
        length: i64::from(queue[0]),
        places: queue[1..].chunks(2).map(|p| (i64::from(p[0]), i64::from(p[1]))).collect(),
    })
}

/// The numbers of a widget.
pub fn widget_numbers(w: &Widget) -> Vec<i32> {
    let mut ns = vec![w.started as i64];
    ns.extend(w.active.iter().map(|&m| m as i64));
    ns.extend(&w.slots);
    ns.extend(&w.vars);
    ns.push(w.length);
    ns.extend(w.places.iter().flat_map(|&(e, a)| [e, a]));
    narrow(&ns)
}

/// The widget of a call other than start: numbers that state none are not started (7) where the first is 0 or none is lent, else foreign (6).
fn given(ns: &[i32]) -> Result<Widget, Refused> {
    match widget(ns) {
        Some(w) => Ok(w),
        None if ns.first().map_or(true, |n| *n == 0) => refused(7, 0),
        None => refused(6, 0),
    }
}

fn put(ns: &mut [i32], w: &Widget) {
    ns[..WIDGET].copy_from_slice(&widget_numbers(w));
}

fn quiet(ns: &mut [i32], r: Result<Widget, Refused>) -> Report {
    report(r.map(|w| {
        put(ns, &w);
        0
    }))
}

fn traced(ns: &mut [i32], trace: &mut [i32], r: Result<Done, Refused>) -> Report {
    let told = fill(trace, r.as_ref().map(|d| narrow(&d.trace)).map_err(|r| *r));
    if let Ok(d) = &r {
        put(ns, &d.widget);
    }
    Report { count: told.count / 3, ..told }
}

pub fn unstarted(ns: &mut [i32]) -> Report {
    let r = if ns.len() < WIDGET { refused(6, 0) } else { Ok(Widget::unstarted()) };
    quiet(ns, r)
}

fn room_for_widget(ns: &[i32]) -> Result<(), Refused> {
    if ns.len() < WIDGET { refused(6, 0) } else { Ok(()) }
}

pub fn start(chart: &[i32], ns: &mut [i32], trace: &mut [i32]) -> Report {
    let r = value::checked(chart).and_then(|c| {
        room_for_widget(ns)?;
        reaction::start(&c, trace.len())
    });
    traced(ns, trace, r)
}

pub fn run(chart: &[i32], ns: &mut [i32], trace: &mut [i32]) -> Report {
    let r = value::checked(chart).and_then(|c| reaction::run(&c, &given(ns)?, trace.len()));
    traced(ns, trace, r)
}

pub fn post(chart: &[i32], ns: &mut [i32], event: i32, arg: i32) -> Report {
    let r = value::checked(chart).and_then(|c| reaction::post(&c, &given(ns)?, event.into(), arg.into()));
    quiet(ns, r)
}

pub fn discard(chart: &[i32], ns: &mut [i32]) -> Report {
    let r = value::checked(chart).and_then(|c| reaction::discard(&c, &given(ns)?));
    quiet(ns, r)
}

pub fn plan_start(plan: &[i32], ns: &mut [i32], trace: &mut [i32]) -> Report {
    let r = machine::examined(&wide(plan)).and_then(|p| {
        room_for_widget(ns)?;
        machine::start(&p, trace.len())
    });
    traced(ns, trace, r)
}

pub fn plan_run(plan: &[i32], ns: &mut [i32], trace: &mut [i32]) -> Report {
    let r = machine::examined(&wide(plan)).and_then(|p| machine::run(&p, &given(ns)?, trace.len()));
    traced(ns, trace, r)
}

pub fn plan_post(plan: &[i32], ns: &mut [i32], event: i32, arg: i32) -> Report {
    let r = machine::examined(&wide(plan)).and_then(|p| machine::post(&p, &given(ns)?, event.into(), arg.into()));
    quiet(ns, r)
}

pub fn plan_discard(plan: &[i32], ns: &mut [i32]) -> Report {
    let r = machine::examined(&wide(plan)).and_then(|p| machine::discard(&p, &given(ns)?));
    quiet(ns, r)
}

/// Each event posted and run, up to the first refusal; then how many were done. A refused post leaves the trace of the last run, and without
/// an event no call is made.
pub fn plan_replay(plan: &[i32], ns: &mut [i32], events: &[i32], trace: &mut [i32]) -> (Report, i32) {
    let mut last = fill(trace, Ok(Vec::new()));
    let mut done = 0;
    for event in events.chunks_exact(2) {
        let posted = plan_post(plan, ns, event[0], event[1]);
        if posted.answer != 0 {
            return (Report { count: last.count, ..posted }, done);
        }
        last = plan_run(plan, ns, trace);
        if last.answer != 0 {
            return (last, done);
        }
        done += 1;
    }
    (last, done)
}
