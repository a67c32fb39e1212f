//! A widget's state, and the effects of a reaction on it, one at a time, each behind its trace entry.

use crate::chart::{Act, Guard, Sign, Variable};
use crate::fault::{self, Fault};
use crate::{in_range, refused, Refused};

pub const STATES: usize = 64;
pub const VARIABLES: usize = 16;
pub const QUEUE: usize = 16;
pub const NULL_STEPS: usize = 32;

/// What is kept of a widget between calls, at full size.
#[derive(Clone, Debug, PartialEq, Eq)]
pub struct Widget {
    pub started: bool,
    pub active: Vec<bool>,
    pub slots: Vec<i64>,
    pub vars: Vec<i64>,
    pub length: i64,
    pub places: Vec<(i64, i64)>,
}

impl Widget {
    pub fn unstarted() -> Widget {
        Widget {
            started: false,
            active: vec![false; STATES],
            slots: vec![-1; STATES],
            vars: vec![0; VARIABLES],
            length: 0,
            places: vec![(0, 0); QUEUE],
        }
    }

    /// A widget at its start: no state active, all slots empty, variables at their first values.
    pub fn fresh(variables: &[Variable]) -> Widget {
        let mut w = Widget::unstarted();
        w.started = true;
        for (i, v) in variables.iter().enumerate() {
            w.vars[i] = v.first;
        }
        w
    }

    pub fn waiting(&self) -> &[(i64, i64)] {
        &self.places[..self.length as usize]
    }

    /// Variables, queue and places that are not in use: what both runners test for answer 6.
    pub fn fits(&self, states: usize, variables: &[Variable], events: i64) -> bool {
        let used = variables.iter().zip(&self.vars).all(|(v, x)| (v.low..=v.high).contains(x));
        let unused = self.vars[variables.len()..].iter().all(|x| *x == 0);
        let marks = self.active[states..].iter().all(|m| !m);
        let queue = (0..=QUEUE as i64).contains(&self.length)
            && self.waiting().iter().all(|(e, a)| (1..=events).contains(e) && in_range(*a))
            && self.places[self.length as usize..].iter().all(|p| *p == (0, 0));
        used && unused && marks && queue
    }

    pub fn append(&mut self, event: i64, arg: i64) -> Result<(), Refused> {
        if self.length as usize >= QUEUE {
            return refused(9, 0);
        }
        self.places[self.length as usize] = (event, arg);
        self.length += 1;
        Ok(())
    }

    pub fn remove(&mut self) -> Result<(i64, i64), Refused> {
        if self.length == 0 {
            return refused(8, 0);
        }
        let front = self.places.remove(0);
        self.places.push((0, 0));
        self.length -= 1;
        Ok(front)
    }

    pub fn guard_holds(&self, guard: Option<Guard>) -> bool {
        guard.map_or(true, |g| {
            let x = self.vars[g.variable as usize];
            match g.sign {
                Sign::Equal => x == g.constant,
                Sign::Less => x < g.constant,
                Sign::More => x > g.constant,
            }
        })
    }
}

/// A reaction under way: the widget, the trace so far, and how many numbers were lent for it.
pub struct Reaction<'a> {
    pub widget: Widget,
    pub trace: Vec<i64>,
    pub lent: usize,
    pub variables: &'a [Variable],
    pub arg: i64,
}

impl Reaction<'_> {
    fn entry(&mut self, kind: i64, a: i64, b: i64) -> Result<(), Refused> {
        if self.lent - self.trace.len() < 3 {
            return refused(11, 0);
        }
        self.trace.extend([kind, a, b]);
        Ok(())
    }

    pub fn take(&mut self, transition: i64) -> Result<(), Refused> {
        self.entry(1, transition, 0)
    }

    /// Leaves a state, which its o parent's slot then holds.
    pub fn leave(&mut self, s: usize, o_parent: Option<usize>) -> Result<(), Refused> {
        self.entry(2, s as i64, 0)?;
        self.widget.active[s] = false;
        if let Some(p) = o_parent {
            self.widget.slots[p] = s as i64;
        }
        Ok(())
    }

    pub fn enter(&mut self, s: usize) -> Result<(), Refused> {
        self.entry(3, s as i64, 0)?;
        self.widget.active[s] = true;
        Ok(())
    }

    fn assign(&mut self, v: i64, x: i64) -> Result<(), Refused> {
        let row = &self.variables[v as usize];
        let held = x.clamp(row.low, row.high);
        self.entry(4, v, held)?;
        self.widget.vars[v as usize] = held;
        Ok(())
    }

    pub fn act(&mut self, act: Act) -> Result<(), Refused> {
        match act {
            Act::Set(v, x) => self.assign(v, x),
            Act::Add(v, x) => self.assign(v, self.widget.vars[v as usize] + x),
            Act::Take(v) => self.assign(v, self.arg),
            Act::Send(e, x) if fault::is(Fault::RoomAfterEffect) => {
                self.widget.append(e, x)?;
                self.entry(5, e, x)
            }
            Act::Send(e, x) => {
                self.entry(5, e, x)?;
                self.widget.append(e, x)
            }
            Act::Tell(x) => self.entry(6, x, 0),
        }
    }
}

/// What a call that is done gives: the widget after it and the trace.
#[derive(Clone, Debug, PartialEq, Eq)]
pub struct Done {
    pub widget: Widget,
    pub trace: Vec<i64>,
}
