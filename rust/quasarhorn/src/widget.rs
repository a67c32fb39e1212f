use crate::answer::{outcome, Refused};
use crate::numbers::{self, Report, WIDGET};
use crate::{Chart, Plan, Trace};

/// What a widget can run by: its chart, or the chart's plan. Both do the same; the plan is faster.
pub trait Behaviour: sealed::Calls {}

impl Behaviour for Chart {}
impl Behaviour for Plan {}

mod sealed {
    use crate::numbers::Report;

    pub trait Calls {
        fn start(&self, widget: &mut [i32], trace: &mut [i32]) -> Report;
        fn run(&self, widget: &mut [i32], trace: &mut [i32]) -> Report;
        fn post(&self, widget: &mut [i32], event: i32, arg: i32) -> Report;
        fn discard(&self, widget: &mut [i32]) -> Report;
    }
}

impl sealed::Calls for Chart {
    fn start(&self, widget: &mut [i32], trace: &mut [i32]) -> Report {
        numbers::start(self.numbers(), widget, trace)
    }
    fn run(&self, widget: &mut [i32], trace: &mut [i32]) -> Report {
        numbers::run(self.numbers(), widget, trace)
    }
    fn post(&self, widget: &mut [i32], event: i32, arg: i32) -> Report {
        numbers::post(self.numbers(), widget, event, arg)
    }
    fn discard(&self, widget: &mut [i32]) -> Report {
        numbers::discard(self.numbers(), widget)
    }
}

impl sealed::Calls for Plan {
    fn start(&self, widget: &mut [i32], trace: &mut [i32]) -> Report {
        numbers::plan_start(self.numbers(), widget, trace)
    }
    fn run(&self, widget: &mut [i32], trace: &mut [i32]) -> Report {
        numbers::plan_run(self.numbers(), widget, trace)
    }
    fn post(&self, widget: &mut [i32], event: i32, arg: i32) -> Report {
        numbers::plan_post(self.numbers(), widget, event, arg)
    }
    fn discard(&self, widget: &mut [i32]) -> Report {
        numbers::plan_discard(self.numbers(), widget)
    }
}

const ACTIVE_AT: usize = 1;
const SLOTS_AT: usize = 65;
const VARIABLES_AT: usize = 129;
const QUEUE_AT: usize = 145;

/// A widget's state, as its 178 numbers.
///
/// A call that is refused changes nothing of it, so that a host can go on after any answer.
///
/// ```
/// use quasarhorn::{Answer, Chart, Entry, Trace, Widget};
///
/// let chart = Chart::read(b"S\t0\t-\to\t1\nS\t1\t0\tb\t-\nS\t2\t0\tb\t-\nV\t0\t0\t5\t0\nE\t1\nT\t0\t1\t1\t-\t-\t-\t2\nA\tt\t0\ta\t0\t9\n")?;
/// let plan = chart.compile();
/// let mut trace = Trace::with_room(100);
/// let mut widget = Widget::unstarted();
///
/// widget.start(&plan, &mut trace)?;
/// assert_eq!(trace.entries().collect::<Vec<_>>(), [Entry::Entered(0), Entry::Entered(1)]);
///
/// widget.post(&plan, 1, 0)?;
/// widget.run(&plan, &mut trace)?;
/// assert_eq!(
///     trace.entries().collect::<Vec<_>>(),
///     [Entry::Taken(0), Entry::Left(1), Entry::Holds(0, 5), Entry::Entered(2)],
/// );
/// assert!(widget.is_active(2));
/// assert_eq!(widget.variable(0), 5);
///
/// // nothing waits now
/// let refused = widget.run(&plan, &mut trace).unwrap_err();
/// assert_eq!(refused.answer, Answer::QueueEmpty);
///
/// // kept as numbers, it goes on later, by its chart as well
/// let kept = *widget.numbers();
/// let mut again = Widget::from_numbers(kept);
/// again.post(&chart, 1, 0)?;
/// assert_eq!(again.waiting(), [(1, 0)]);
/// # Ok::<(), quasarhorn::Refused>(())
/// ```
#[derive(Clone, Debug, PartialEq, Eq)]
pub struct Widget {
    numbers: [i32; WIDGET],
}

impl Widget {
    /// A widget that is not started.
    pub fn unstarted() -> Widget {
        let mut widget = Widget { numbers: [0; WIDGET] };
        outcome(numbers::unstarted(&mut widget.numbers)).expect("the numbers are as many as a widget has");
        widget
    }

    /// The widget that was kept as these numbers. They may be any: a call refuses those that its chart or plan cannot have made.
    pub fn from_numbers(numbers: [i32; WIDGET]) -> Widget {
        Widget { numbers }
    }

    /// Its numbers, to be kept.
    pub fn numbers(&self) -> &[i32; WIDGET] {
        &self.numbers
    }

    fn traced(&mut self, trace: &mut Trace, call: impl FnOnce(&mut [i32], &mut [i32]) -> Report) -> Result<(), Refused> {
        let report = call(&mut self.numbers, &mut trace.numbers);
        trace.entries = report.count as usize;
        outcome(report).map(|_| ())
    }

    /// Starts it, whatever it held; events that its actions send wait afterwards.
    pub fn start(&mut self, by: &impl Behaviour, trace: &mut Trace) -> Result<(), Refused> {
        self.traced(trace, |w, t| by.start(w, t))
    }

    /// Runs the event in front of the queue, and the null steps after it.
    pub fn run(&mut self, by: &impl Behaviour, trace: &mut Trace) -> Result<(), Refused> {
        self.traced(trace, |w, t| by.run(w, t))
    }

    /// Appends an event with an argument to the queue.
    pub fn post(&mut self, by: &impl Behaviour, event: i32, arg: i32) -> Result<(), Refused> {
        outcome(by.post(&mut self.numbers, event, arg)).map(|_| ())
    }

    /// Removes the event in front of the queue.
    pub fn discard(&mut self, by: &impl Behaviour) -> Result<(), Refused> {
        outcome(by.discard(&mut self.numbers)).map(|_| ())
    }

    /// Posts and runs each event with its argument, up to the first refusal: how many were done, and that refusal. The trace is that of the
    /// last run. What was done stays done.
    ///
    /// ```
    /// use quasarhorn::{Answer, Chart, Trace, Widget};
    ///
    /// let chart = Chart::read(b"S\t0\t-\to\t1\nS\t1\t0\tb\t-\nS\t2\t0\tb\t-\nE\t2\nT\t0\t1\t1\t-\t-\t-\t2\nT\t1\t2\t2\t-\t-\t-\t1\n")?;
    /// let plan = chart.compile();
    /// let mut trace = Trace::with_room(100);
    /// let mut widget = Widget::unstarted();
    /// widget.start(&plan, &mut trace)?;
    /// let (done, ended) = widget.replay(&plan, &[[1, 0], [2, 0], [1, 0]], &mut trace);
    /// assert_eq!((done, ended), (3, Ok(())));
    /// assert!(widget.is_active(2));
    /// let (done, ended) = widget.replay(&plan, &[[2, 0], [3, 0], [1, 0]], &mut trace);
    /// assert_eq!((done, ended.unwrap_err().answer), (1, Answer::NoSuchEvent));
    /// assert!(widget.is_active(1));
    /// # Ok::<(), quasarhorn::Refused>(())
    /// ```
    pub fn replay(&mut self, plan: &Plan, events: &[[i32; 2]], trace: &mut Trace) -> (usize, Result<(), Refused>) {
        let pairs: Vec<i32> = events.iter().flat_map(|e| *e).collect();
        let (report, done) = numbers::plan_replay(plan.numbers(), &mut self.numbers, &pairs, &mut trace.numbers);
        trace.entries = report.count as usize;
        (done as usize, outcome(report).map(|_| ()))
    }

    /// Whether it is started.
    pub fn is_started(&self) -> bool {
        self.numbers[0] == 1
    }

    /// Whether a state is active; no state past 63 is.
    pub fn is_active(&self, state: usize) -> bool {
        state < 64 && self.numbers[ACTIVE_AT + state] == 1
    }

    /// The child that a state's slot holds for its history, if any.
    pub fn slot(&self, state: usize) -> Option<usize> {
        if state < 64 { usize::try_from(self.numbers[SLOTS_AT + state]).ok() } else { None }
    }

    /// The value of a variable.
    ///
    /// # Panics
    ///
    /// Where there is no such variable, that is past 15.
    pub fn variable(&self, variable: usize) -> i32 {
        self.numbers[VARIABLES_AT..QUEUE_AT][variable]
    }

    /// The events that wait, each with its argument, the front one first.
    pub fn waiting(&self) -> Vec<(i32, i32)> {
        let length = usize::try_from(self.numbers[QUEUE_AT]).unwrap_or(0);
        self.numbers[QUEUE_AT + 1..].chunks(2).take(length).map(|p| (p[0], p[1])).collect()
    }
}
