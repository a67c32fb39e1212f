//! An interpreter of charts as one would write it for speed: sets of states are words of 64 bits, everything about the chart is worked out once
//! (`tables`), and nothing is allocated in a call. The tests check it against the plain interpreter.

pub use crate::tables::Chart;
use crate::tables::{holds, Act, Goal, Span, Transition};
use oracle::chart::Kind;
use oracle::widget::{NULL_STEPS, QUEUE, STATES, VARIABLES};

const MOST_CHOSEN: usize = STATES;

/// A widget's state.
#[derive(Clone, Copy, Debug, PartialEq, Eq)]
pub struct Widget {
    pub started: bool,
    pub active: u64,
    pub slots: [i8; STATES],
    pub vars: [i32; VARIABLES],
    pub length: usize,
    pub places: [(i32, i32); QUEUE],
}

impl Widget {
    pub fn unstarted() -> Widget {
        Widget { started: false, active: 0, slots: [-1; STATES], vars: [0; VARIABLES], length: 0, places: [(0, 0); QUEUE] }
    }

    /// Its numbers, as the engine has them.
    pub fn numbers(&self) -> Vec<i32> {
        let mut ns = vec![self.started as i32];
        ns.extend((0..STATES).map(|s| (self.active >> s & 1) as i32));
        ns.extend(self.slots.iter().map(|&d| i32::from(d)));
        ns.extend(self.vars);
        ns.push(self.length as i32);
        ns.extend(self.places.iter().flat_map(|&(e, a)| [e, a]));
        ns
    }
}

/// A reaction under way.
struct Reaction<'a> {
    chart: &'a Chart,
    widget: &'a mut Widget,
    trace: &'a mut [i32],
    at: usize,
    arg: i32,
}

type Step = Result<(), i32>;

impl Reaction<'_> {
    #[inline(always)]
    fn entry(&mut self, kind: i32, a: i32, b: i32) -> Step {
        match self.trace.get_mut(self.at..self.at + 3) {
            Some(e) => {
                e[0] = kind;
                e[1] = a;
                e[2] = b;
                self.at += 3;
                Ok(())
            }
            None => Err(11),
        }
    }

    #[inline(always)]
    fn assign(&mut self, v: usize, x: i32) -> Step {
        let (low, high, _) = self.chart.ranges[v];
        let held = x.clamp(low, high);
        self.entry(4, v as i32, held)?;
        self.widget.vars[v] = held;
        Ok(())
    }

    #[inline(always)]
    fn acts(&mut self, span: Span) -> Step {
        let chart = self.chart;
        for act in &chart.acts[span.from as usize..span.to as usize] {
            match *act {
                Act::Set(v, x) => self.assign(v, x)?,
                Act::Add(v, x) => self.assign(v, self.widget.vars[v] + x)?,
                Act::Take(v) => self.assign(v, self.arg)?,
                Act::Send(e, x) => {
                    self.entry(5, e, x)?;
                    self.widget.append(e, x)?;
                }
                Act::Tell(x) => self.entry(6, x, 0)?,
            }
        }
        Ok(())
    }

    #[inline(always)]
    fn enter(&mut self, s: usize) -> Step {
        self.entry(3, s as i32, 0)?;
        self.widget.active |= 1 << s;
        self.acts(self.chart.entry[s])
    }

    /// What belongs below a state that is in, by defaults.
    fn by_default(&mut self, s: usize) -> Step {
        let c = self.chart;
        match c.kind[s] {
            Kind::B => Ok(()),
            Kind::O => {
                self.acts(c.on_default[s])?;
                self.enter(c.default[s])?;
                self.by_default(c.default[s])
            }
            Kind::A => {
                let mut left = c.children[s];
                while left != 0 {
                    let d = left.trailing_zeros() as usize;
                    left &= left - 1;
                    self.enter(d)?;
                    self.by_default(d)?;
                }
                Ok(())
            }
        }
    }

    /// What belongs below a state that is in, by the slots.
    fn by_slots(&mut self, s: usize) -> Step {
        let c = self.chart;
        match c.kind[s] {
            Kind::B => Ok(()),
            Kind::O => {
                let d = usize::try_from(self.widget.slots[s]).map_err(|_| 14)?;
                self.enter(d)?;
                self.by_slots(d)
            }
            Kind::A => {
                let mut left = c.children[s];
                while left != 0 {
                    let d = left.trailing_zeros() as usize;
                    left &= left - 1;
                    self.enter(d)?;
                    self.by_slots(d)?;
                }
                Ok(())
            }
        }
    }

    /// What belongs below a state that is in, on the way of a transition.
    fn on_way(&mut self, s: usize, t: &Transition) -> Step {
        let c = self.chart;
        let on = c.children[s] & t.way;
        match c.kind[s] {
            Kind::A if on != 0 => {
                let mut left = c.children[s];
                while left != 0 {
                    let d = left.trailing_zeros() as usize;
                    left &= left - 1;
                    self.enter(d)?;
                    if on >> d & 1 == 1 {
                        self.on_way(d, t)?;
                    } else {
                        self.by_default(d)?;
                    }
                }
                Ok(())
            }
            Kind::O if on != 0 => {
                let d = on.trailing_zeros() as usize;
                self.enter(d)?;
                self.on_way(d, t)
            }
            Kind::O if matches!(t.goal, Goal::History) && t.aim == s && self.widget.slots[s] != -1 => self.by_slots(s),
            _ => self.by_default(s),
        }
    }

    fn fire(&mut self, t: &Transition) -> Step {
        self.entry(1, t.number, 0)?;
        if let Goal::InPlace = t.goal {
            return self.acts(t.acts);
        }
        let mut leaving = self.widget.active & t.span;
        while leaving != 0 {
            let s = 63 - leaving.leading_zeros() as usize;
            leaving &= !(1 << s);
            self.entry(2, s as i32, 0)?;
            self.widget.active &= !(1 << s);
            if let Some(p) = self.chart.o_parent[s] {
                self.widget.slots[p as usize] = s as i8;
            }
            self.acts(self.chart.exit[s])?;
        }
        self.acts(t.acts)?;
        self.on_way(t.scope, t)
    }

    /// The enabled transitions of a trigger that are chosen, as places in the chart's list, and how many.
    #[inline(always)]
    fn chosen(&self, trigger: usize, chosen: &mut [u8; MOST_CHOSEN]) -> usize {
        let (c, w) = (self.chart, &*self.widget);
        let span = c.by_trigger[trigger];
        let (mut count, mut taken) = (0, 0);
        for (i, t) in c.transitions[span.from as usize..span.to as usize].iter().enumerate() {
            let holds = w.active >> t.source & 1 == 1
                && taken & t.span == 0
                && holds(t.guard, &w.vars);
            if holds {
                chosen[count] = i as u8;
                count += 1;
                taken |= t.span;
            }
        }
        count
    }

    /// One step; whether anything was chosen.
    fn step(&mut self, trigger: usize, arg: i32) -> Result<bool, i32> {
        let mut chosen = [0; MOST_CHOSEN];
        let count = self.chosen(trigger, &mut chosen);
        self.arg = arg;
        let chart = self.chart;
        let from = chart.by_trigger[trigger].from as usize;
        for &i in &chosen[..count] {
            self.fire(&chart.transitions[from + i as usize])?;
        }
        Ok(count > 0)
    }

    fn settle(&mut self) -> Step {
        for _ in 0..NULL_STEPS {
            if !self.step(0, 0)? {
                return Ok(());
            }
        }
        if self.chosen(0, &mut [0; MOST_CHOSEN]) == 0 { Ok(()) } else { Err(12) }
    }
}

impl Widget {
    #[inline(always)]
    fn append(&mut self, event: i32, arg: i32) -> Step {
        if self.length >= QUEUE {
            return Err(9);
        }
        self.places[self.length] = (event, arg);
        self.length += 1;
        Ok(())
    }

    #[inline(always)]
    fn remove(&mut self) -> Result<(i32, i32), i32> {
        if self.length == 0 {
            return Err(8);
        }
        let front = self.places[0];
        self.places.copy_within(1..self.length, 0);
        self.length -= 1;
        self.places[self.length] = (0, 0);
        Ok(front)
    }
}

impl Chart {
    /// The full test for 6.
    fn is_own(&self, w: &Widget) -> bool {
        let all = if self.states == 64 { u64::MAX } else { (1 << self.states) - 1 };
        if w.active & 1 == 0 || w.active & !all != 0 || w.length > QUEUE {
            return false;
        }
        let mut left = w.active;
        let mut inside = 1;
        while left != 0 {
            let s = left.trailing_zeros() as usize;
            left &= left - 1;
            let active = w.active & self.children[s];
            let fits = match self.kind[s] {
                Kind::O => active.count_ones() == 1,
                Kind::A => active == self.children[s],
                Kind::B => true,
            };
            if !fits {
                return false;
            }
            inside |= active;
        }
        inside == w.active && self.slots_fit(w) && self.values_fit(&w.vars) && self.queue_fits(w)
    }

    fn slots_fit(&self, w: &Widget) -> bool {
        (0..STATES).all(|s| match usize::try_from(w.slots[s]) {
            Err(_) => w.slots[s] == -1,
            Ok(d) => {
                s < self.states && d < self.states && self.kind[s] == Kind::O && self.children[s] >> d & 1 == 1 && self.leads_on(w, d)
            }
        })
    }

    fn leads_on(&self, w: &Widget, d: usize) -> bool {
        match self.kind[d] {
            Kind::B => true,
            Kind::O => w.slots[d] != -1,
            Kind::A => {
                let mut left = self.children[d];
                while left != 0 {
                    if w.slots[left.trailing_zeros() as usize] == -1 {
                        return false;
                    }
                    left &= left - 1;
                }
                true
            }
        }
    }

    fn queue_fits(&self, w: &Widget) -> bool {
        w.places.iter().enumerate().all(|(i, &(e, a))| if i < w.length { self.takes(e, a) } else { (e, a) == (0, 0) })
    }

    #[inline(always)]
    fn tested<const TESTS: bool>(&self, w: &Widget) -> Step {
        if !w.started {
            return Err(7);
        }
        if TESTS && !self.is_own(w) {
            return Err(6);
        }
        Ok(())
    }

    #[inline(always)]
    fn reacted<const CLEARS: bool>(
        &self,
        w: &mut Widget,
        trace: &mut [i32],
        react: impl FnOnce(&mut Reaction) -> Step,
    ) -> (i32, usize) {
        let before = *w;
        let mut r = Reaction { chart: self, widget: w, trace, at: 0, arg: 0 };
        let (answer, end) = match react(&mut r) {
            Ok(()) => (0, r.at),
            Err(number) => (number, 0),
        };
        if answer != 0 {
            *w = before;
        }
        if CLEARS || answer != 0 {
            trace[end..].fill(0);
        }
        (answer, end / 3)
    }

    /// Starts a widget: the answer, and how many entries there are.
    pub fn start<const CLEARS: bool>(&self, w: &mut Widget, trace: &mut [i32]) -> (i32, usize) {
        self.reacted::<CLEARS>(w, trace, |r| {
            *r.widget = Widget::unstarted();
            r.widget.started = true;
            for v in 0..self.variables {
                r.widget.vars[v] = self.ranges[v].2;
            }
            r.enter(0)?;
            r.by_default(0)?;
            r.settle()
        })
    }

    /// Runs the front event: the answer, and how many entries there are.
    pub fn run<const TESTS: bool, const CLEARS: bool>(&self, w: &mut Widget, trace: &mut [i32]) -> (i32, usize) {
        self.reacted::<CLEARS>(w, trace, |r| {
            self.tested::<TESTS>(r.widget)?;
            let (event, arg) = r.widget.remove()?;
            r.step(event as usize, arg)?;
            r.settle()
        })
    }

    /// Posts an event with its argument.
    pub fn post<const TESTS: bool>(&self, w: &mut Widget, event: i32, arg: i32) -> i32 {
        let posted = self.tested::<TESTS>(w).and_then(|()| {
            if self.takes(event, arg) { w.append(event, arg) } else { Err(10) }
        });
        posted.err().unwrap_or(0)
    }
}
