//! The engine's calls on numbers and bytes that the caller lends, just as the archive has them: safe, and nothing is allocated.
//!
//! What each call promises stands in `docs/HOST.md`. Every call may be made with slices of any length that hold anything.

/// How many numbers a widget has.
pub const WIDGET: usize = 178;

/// How many numbers a chart has.
pub const CHART: usize = 2421;

/// So many numbers are always enough for the plan of a chart.
pub const PLAN: usize = 462_390;

/// The longest chart text, in bytes; so many are always enough for a text that is written.
pub const TEXT: usize = 32_768;

/// Numbers to an entry of a trace.
pub const ENTRY: usize = 3;

/// What a call says besides what it was lent.
#[derive(Clone, Copy, Debug, Default, PartialEq, Eq)]
pub struct Report {
    /// The answer's number, 0 where the call is done.
    pub answer: i32,
    /// The place given with it: a line, a rule's number, or 0.
    pub place: i32,
    /// Entries of a trace, bytes of a text or numbers of a plan; 0 where there is none.
    pub count: i32,
}

// A slice crosses as its pointer and its length, a report as a pointer to its numbers. The engine keeps no pointer after a call.
extern "C" {
    fn qh_check(chart: *const i32, length: usize, report: *mut [i32; 2]) -> i32;
    fn qh_read(text: *const u8, bytes: usize, chart: *mut i32, length: usize, report: *mut [i32; 2]) -> i32;
    fn qh_write(chart: *const i32, length: usize, text: *mut u8, bytes: usize, report: *mut [i32; 2]) -> i32;
    fn qh_compile(chart: *const i32, length: usize, plan: *mut i32, room: usize, report: *mut [i32; 2]) -> i32;
    fn qh_examine(plan: *const i32, length: usize, report: *mut [i32; 2]) -> i32;
    fn qh_unstarted(widget: *mut i32, length: usize, report: *mut [i32; 2]) -> i32;
    #[cfg(has_replay)]
    fn qh_plan_replay(
        plan: *const i32,
        length: usize,
        widget: *mut i32,
        numbers: usize,
        events: *const i32,
        pairs: usize,
        trace: *mut i32,
        room: usize,
        report: *mut [i32; 3],
    ) -> i32;
}

type Traced = unsafe extern "C" fn(*const i32, usize, *mut i32, usize, *mut i32, usize, *mut [i32; 2]) -> i32;
type Posted = unsafe extern "C" fn(*const i32, usize, *mut i32, usize, i32, i32, *mut [i32; 2]) -> i32;
type Quiet = unsafe extern "C" fn(*const i32, usize, *mut i32, usize, *mut [i32; 2]) -> i32;

/// The calls on a widget, over a chart or over its plan.
mod widget_calls {
    extern "C" {
        pub fn qh_start(c: *const i32, n: usize, w: *mut i32, m: usize, t: *mut i32, room: usize, r: *mut [i32; 2]) -> i32;
        pub fn qh_run(c: *const i32, n: usize, w: *mut i32, m: usize, t: *mut i32, room: usize, r: *mut [i32; 2]) -> i32;
        pub fn qh_post(c: *const i32, n: usize, w: *mut i32, m: usize, event: i32, arg: i32, r: *mut [i32; 2]) -> i32;
        pub fn qh_discard(c: *const i32, n: usize, w: *mut i32, m: usize, r: *mut [i32; 2]) -> i32;
        pub fn qh_plan_start(p: *const i32, n: usize, w: *mut i32, m: usize, t: *mut i32, room: usize, r: *mut [i32; 2]) -> i32;
        pub fn qh_plan_run(p: *const i32, n: usize, w: *mut i32, m: usize, t: *mut i32, room: usize, r: *mut [i32; 2]) -> i32;
        pub fn qh_plan_post(p: *const i32, n: usize, w: *mut i32, m: usize, event: i32, arg: i32, r: *mut [i32; 2]) -> i32;
        pub fn qh_plan_discard(p: *const i32, n: usize, w: *mut i32, m: usize, r: *mut [i32; 2]) -> i32;
    }
}
use widget_calls::*;

fn told(call: impl FnOnce(*mut [i32; 2]) -> i32) -> Report {
    let mut report = [0; 2];
    let answer = call(&mut report);
    Report { answer, place: report[0], count: report[1] }
}

/// Tests the chart rules R0 to R7: 0, or 3 with the rule.
pub fn check(chart: &[i32]) -> Report {
    // SAFETY: pointer and length are those of a slice that lives through the call; so in every call below. Two slices that are lent
    // at once do not overlap where one of them is changed, since Rust lends a `&mut` once.
    told(|r| unsafe { qh_check(chart.as_ptr(), chart.len(), r) })
}

/// Reads a chart text into a chart's numbers.
pub fn read(text: &[u8], chart: &mut [i32]) -> Report {
    told(|r| unsafe { qh_read(text.as_ptr(), text.len(), chart.as_mut_ptr(), chart.len(), r) })
}

/// Writes a chart's text; the count is its length in bytes.
pub fn write(chart: &[i32], text: &mut [u8]) -> Report {
    told(|r| unsafe { qh_write(chart.as_ptr(), chart.len(), text.as_mut_ptr(), text.len(), r) })
}

/// Compiles a chart into its plan; the count is the plan's length.
pub fn compile(chart: &[i32], plan: &mut [i32]) -> Report {
    told(|r| unsafe { qh_compile(chart.as_ptr(), chart.len(), plan.as_mut_ptr(), plan.len(), r) })
}

/// Examines numbers as a plan: 0 or 5.
pub fn examine(plan: &[i32]) -> Report {
    told(|r| unsafe { qh_examine(plan.as_ptr(), plan.len(), r) })
}

/// Writes a widget that is not started.
pub fn unstarted(widget: &mut [i32]) -> Report {
    told(|r| unsafe { qh_unstarted(widget.as_mut_ptr(), widget.len(), r) })
}

fn traced(f: Traced, by: &[i32], widget: &mut [i32], trace: &mut [i32]) -> Report {
    told(|r| unsafe { f(by.as_ptr(), by.len(), widget.as_mut_ptr(), widget.len(), trace.as_mut_ptr(), trace.len(), r) })
}

fn posted(f: Posted, by: &[i32], widget: &mut [i32], event: i32, arg: i32) -> Report {
    told(|r| unsafe { f(by.as_ptr(), by.len(), widget.as_mut_ptr(), widget.len(), event, arg, r) })
}

fn quiet(f: Quiet, by: &[i32], widget: &mut [i32]) -> Report {
    told(|r| unsafe { f(by.as_ptr(), by.len(), widget.as_mut_ptr(), widget.len(), r) })
}

/// Starts a widget over a chart; the count is the trace's entries.
pub fn start(chart: &[i32], widget: &mut [i32], trace: &mut [i32]) -> Report {
    traced(qh_start, chart, widget, trace)
}

/// Runs the front event over a chart; the count is the trace's entries.
pub fn run(chart: &[i32], widget: &mut [i32], trace: &mut [i32]) -> Report {
    traced(qh_run, chart, widget, trace)
}

/// Appends an event with an argument, over a chart.
pub fn post(chart: &[i32], widget: &mut [i32], event: i32, arg: i32) -> Report {
    posted(qh_post, chart, widget, event, arg)
}

/// Removes the front event, over a chart.
pub fn discard(chart: &[i32], widget: &mut [i32]) -> Report {
    quiet(qh_discard, chart, widget)
}

/// Starts a widget over a plan; the count is the trace's entries.
pub fn plan_start(plan: &[i32], widget: &mut [i32], trace: &mut [i32]) -> Report {
    traced(qh_plan_start, plan, widget, trace)
}

/// Runs the front event over a plan; the count is the trace's entries.
pub fn plan_run(plan: &[i32], widget: &mut [i32], trace: &mut [i32]) -> Report {
    traced(qh_plan_run, plan, widget, trace)
}

/// Appends an event with an argument, over a plan.
pub fn plan_post(plan: &[i32], widget: &mut [i32], event: i32, arg: i32) -> Report {
    posted(qh_plan_post, plan, widget, event, arg)
}

/// Removes the front event, over a plan.
pub fn plan_discard(plan: &[i32], widget: &mut [i32]) -> Report {
    quiet(qh_plan_discard, plan, widget)
}

/// Posts and runs each event of pairs (event, argument) over a plan, up to the first refusal; says besides how many were done. The count
/// and the trace are those of the last run.
#[cfg(has_replay)]
pub fn plan_replay(plan: &[i32], widget: &mut [i32], events: &[i32], trace: &mut [i32]) -> (Report, i32) {
    let mut report = [0; 3];
    let (w, t) = (widget.as_mut_ptr(), trace.as_mut_ptr());
    let answer = unsafe {
        qh_plan_replay(plan.as_ptr(), plan.len(), w, widget.len(), events.as_ptr(), events.len(), t, trace.len(), &mut report)
    };
    (Report { answer, place: report[0], count: report[1] }, report[2])
}

/// The same where the archive was made without that call: each event by the single calls.
#[cfg(not(has_replay))]
pub fn plan_replay(plan: &[i32], widget: &mut [i32], events: &[i32], trace: &mut [i32]) -> (Report, i32) {
    trace.iter_mut().for_each(|n| *n = 0);
    let mut last = Report::default();
    for (done, event) in events.chunks_exact(2).enumerate() {
        let posted = plan_post(plan, widget, event[0], event[1]);
        if posted.answer != 0 {
            return (Report { count: last.count, ..posted }, done as i32);
        }
        last = plan_run(plan, widget, trace);
        if last.answer != 0 {
            return (last, done as i32);
        }
    }
    (last, (events.len() / 2) as i32)
}

/// Whether the archive that was linked has `qh_plan_replay`.
pub const HAS_REPLAY: bool = cfg!(has_replay);
