//! Start, run, post and discard on a plan's numbers.

use crate::fault::{self, Fault};
use crate::plan::{examine, Head, Instruction, Plan};
use crate::widget::{Done, Reaction, Widget, NULL_STEPS};
use crate::{in_range, refused, Refused};

struct Machine<'a> {
    plan: &'a Plan,
    r: Reaction<'a>,
}

impl Machine<'_> {
    fn block(&mut self, start: usize, length: usize) -> Result<(), Refused> {
        let (plan, end) = (self.plan, start + length);
        let mut i = start;
        while i < end {
            let over = self.execute(plan.code[i])?;
            i += 1 + over as usize;
        }
        Ok(())
    }

    /// Does one instruction, and says how many are to be passed over.
    fn execute(&mut self, i: Instruction) -> Result<i64, Refused> {
        let slot = |w: &Widget, s: i64| w.slots[s as usize];
        let w = &self.r.widget;
        let over = match i {
            Instruction::SkipOut(s, n) if !w.active[s as usize] => n,
            Instruction::SkipEmpty(s, n) if slot(w, s) == -1 => n,
            Instruction::SkipFull(s, n) if slot(w, s) != -1 => n,
            Instruction::SkipNot(s, d, n) if slot(w, s) != d => n,
            _ => 0,
        };
        match i {
            Instruction::In(s) => self.r.enter(s as usize)?,
            Instruction::Out(s, p) => self.r.leave(s as usize, usize::try_from(p).ok())?,
            Instruction::Does(act) => self.r.act(act)?,
            _ => {}
        }
        Ok(over)
    }

    fn chosen(&self, event: i64) -> Vec<usize> {
        let (plan, w) = (self.plan, &self.r.widget);
        let meets = |a: &Head, b: &Head| a.first <= b.last && b.first <= a.last;
        let mut chosen: Vec<usize> = Vec::new();
        for (i, h) in plan.heads.iter().enumerate() {
            let enabled = h.trigger == event && w.active[h.source as usize] && w.guard_holds(h.guard);
            if enabled && !chosen.iter().any(|&j| meets(h, &plan.heads[j])) {
                chosen.push(i);
            }
        }
        chosen
    }

    fn step(&mut self, event: i64, arg: i64) -> Result<bool, Refused> {
        let chosen = self.chosen(event);
        self.r.arg = arg;
        for &i in &chosen {
            let h = &self.plan.heads[i];
            self.r.take(h.transition)?;
            self.block(h.start, h.length)?;
        }
        Ok(!chosen.is_empty())
    }

    fn settle(&mut self) -> Result<(), Refused> {
        for _ in 0..NULL_STEPS {
            if !self.step(0, 0)? {
                return Ok(());
            }
        }
        if self.chosen(0).is_empty() { Ok(()) } else { refused(12, 0) }
    }

    fn done(self) -> Done {
        Done { widget: self.r.widget, trace: self.r.trace }
    }
}

fn machine(plan: &Plan, widget: Widget, lent: usize) -> Machine<'_> {
    Machine { plan, r: Reaction { widget, trace: Vec::new(), lent, variables: &plan.variables, arg: 0 } }
}

/// The plan that numbers state, or 5.
pub fn examined(ns: &[i64]) -> Result<Plan, Refused> {
    examine(ns).map_or(refused(5, 0), Ok)
}

fn tested(p: &Plan, w: &Widget) -> Result<(), Refused> {
    if !w.started {
        return refused(7, 0);
    }
    let passed_over = |s: usize| fault::is(Fault::SlotsOfActiveOnly) && !w.active[s];
    let slots = (0..p.states).all(|s| (-1..p.states as i64).contains(&w.slots[s]) || passed_over(s))
        && w.slots[p.states..].iter().all(|d| *d == -1);
    if w.active[0] && slots && w.fits(p.states, &p.variables, p.events) { Ok(()) } else { refused(6, 0) }
}

pub fn start(p: &Plan, lent: usize) -> Result<Done, Refused> {
    let mut m = machine(p, Widget::fresh(&p.variables), lent);
    m.block(0, p.start)?;
    m.settle()?;
    Ok(m.done())
}

pub fn run(p: &Plan, w: &Widget, lent: usize) -> Result<Done, Refused> {
    tested(p, w)?;
    let mut after = w.clone();
    let (event, arg) = after.remove()?;
    let mut m = machine(p, after, lent);
    m.step(event, arg)?;
    m.settle()?;
    Ok(m.done())
}

pub fn post(p: &Plan, w: &Widget, event: i64, arg: i64) -> Result<Widget, Refused> {
    tested(p, w)?;
    let fits = (1..=p.events).contains(&event) && in_range(arg);
    let mut after = w.clone();
    if fault::is(Fault::FullBeforeEvent) {
        after.append(event, arg)?;
        return if fits { Ok(after) } else { refused(10, 0) };
    }
    if !fits {
        return refused(10, 0);
    }
    after.append(event, arg)?;
    Ok(after)
}

pub fn discard(p: &Plan, w: &Widget) -> Result<Widget, Refused> {
    tested(p, w)?;
    let mut after = w.clone();
    after.remove()?;
    Ok(after)
}
