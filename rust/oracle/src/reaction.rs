//! Start, run, post and discard on the chart, by walking its tree.

use crate::chart::{Act, Chart, Kind, Owner, Target};
use crate::fault::{self, Fault};
use crate::widget::{Done, Reaction, Widget, NULL_STEPS, STATES};
use crate::{in_range, refused, Refused};

/// How an o state goes on downwards.
enum Way<'a> {
    Defaults,
    /// On the path to this state, and then by defaults.
    Towards(usize),
    /// On the path to the owner of a history, which itself goes on by its slot.
    ToHistory(usize),
    /// By these slots.
    Slots(&'a [i64]),
}

/// A legal configuration, and slots that hold children and lead on: the rest of the chart's test for 6.
pub fn is_own(c: &Chart, w: &Widget) -> bool {
    let active = |s: usize| w.active[s];
    let legal = (0..c.states.len()).all(|s| {
        let children = c.children(s);
        let inside = children.iter().filter(|&&d| active(d)).count();
        match (active(s), c.kind(s)) {
            (false, _) => inside == 0,
            (true, Kind::O) => inside == 1,
            (true, Kind::A) => inside == children.len(),
            (true, Kind::B) => true,
        }
    });
    let filled = |s: usize| w.slots[s] != -1;
    let slots = (0..STATES).all(|s| {
        let d = w.slots[s];
        if d == -1 {
            return true;
        }
        let is_child = s < c.states.len()
            && c.kind(s) == Kind::O
            && (0..c.states.len() as i64).contains(&d)
            && c.parent(d as usize) == Some(s);
        is_child
            && match c.kind(d as usize) {
                Kind::O => filled(d as usize),
                Kind::A => c.children(d as usize).into_iter().all(filled),
                Kind::B => true,
            }
    });
    active(0) && legal && slots && w.fits(c.states.len(), &c.variables, c.events)
}

struct Runner<'a> {
    chart: &'a Chart,
    r: Reaction<'a>,
}

impl Runner<'_> {
    fn acts(&mut self, owner: Owner) -> Result<(), Refused> {
        self.chart.acts(owner).into_iter().try_for_each(|a: Act| self.r.act(a))
    }

    fn enter(&mut self, s: usize) -> Result<(), Refused> {
        self.r.enter(s)?;
        self.acts(Owner::Entry(s as i64))
    }

    fn enter_by_default(&mut self, parent: usize) -> Result<usize, Refused> {
        let d = self.chart.default_child(parent);
        self.acts(Owner::Default(parent as i64))?;
        self.enter(d)?;
        Ok(d)
    }

    /// Enters what belongs below a state that is in.
    fn below(&mut self, s: usize, way: &Way) -> Result<(), Refused> {
        let c = self.chart;
        match c.kind(s) {
            Kind::B => Ok(()),
            Kind::A => c.children(s).into_iter().try_for_each(|d| {
                self.enter(d)?;
                self.below(d, way)
            }),
            Kind::O => match way {
                Way::Slots(slots) => {
                    let d = slots[s];
                    if d == -1 {
                        return refused(14, 0);
                    }
                    if fault::is(Fault::DefaultsAtRestore) {
                        self.acts(Owner::Default(s as i64))?;
                    }
                    self.enter(d as usize)?;
                    self.below(d as usize, way)
                }
                Way::ToHistory(b) if *b == s => self.restore(s),
                Way::Towards(t) | Way::ToHistory(t) if c.is_below(s, *t) => {
                    let on = std::iter::once(*t).chain(c.ancestors(*t)).find(|&x| c.parent(x) == Some(s)).unwrap_or(0);
                    self.enter(on)?;
                    self.below(on, way)
                }
                _ => {
                    let stored = self.r.widget.slots[s];
                    if fault::is(Fault::ComponentsBySlots) && stored != -1 {
                        self.enter(stored as usize)?;
                        return self.below(stored as usize, way);
                    }
                    let d = self.enter_by_default(s)?;
                    self.below(d, &Way::Defaults)
                }
            },
        }
    }

    fn restore(&mut self, owner: usize) -> Result<(), Refused> {
        if self.r.widget.slots[owner] == -1 && fault::is(Fault::EmptySlotIsRoot) {
            return self.enter(0);
        }
        if self.r.widget.slots[owner] == -1 {
            let d = self.enter_by_default(owner)?;
            return self.below(d, &Way::Defaults);
        }
        let slots = self.r.widget.slots.clone();
        self.below(owner, &Way::Slots(&slots))
    }

    fn fire(&mut self, t: usize) -> Result<(), Refused> {
        let c = self.chart;
        self.r.take(t as i64)?;
        let aim = match c.aim(t) {
            Some(aim) => aim,
            None => return self.acts(Owner::Transition(t as i64)),
        };
        let scope = c.scope(c.transitions[t].source as usize, aim);
        let mut span = c.descendants(scope);
        if !fault::is(Fault::LowestLeftFirst) {
            span.reverse();
        }
        for s in span {
            if self.r.widget.active[s] {
                let parent = c.parent(s).filter(|&p| c.kind(p) == Kind::O);
                self.r.leave(s, parent)?;
                self.acts(Owner::Exit(s as i64))?;
            }
        }
        self.acts(Owner::Transition(t as i64))?;
        let way = match c.transitions[t].target {
            Target::History(_) => Way::ToHistory(aim),
            _ => Way::Towards(aim),
        };
        self.below(scope, &way)
    }

    fn chosen(&self, event: i64) -> Vec<usize> {
        let (c, w) = (self.chart, &self.r.widget);
        let mut gone = vec![false; c.states.len()];
        let mut chosen = Vec::new();
        for t in c.choosing_order() {
            let row = &c.transitions[t];
            let enabled = row.trigger == event && w.active[row.source as usize] && w.guard_holds(row.guard);
            if !enabled {
                continue;
            }
            let span = c.span(t);
            if !span.iter().any(|&s| gone[s]) {
                span.iter().for_each(|&s| gone[s] = true);
                chosen.push(t);
            }
        }
        chosen
    }

    fn step(&mut self, event: i64, arg: i64) -> Result<bool, Refused> {
        let chosen = self.chosen(event);
        self.r.arg = arg;
        for &t in &chosen {
            let late = fault::is(Fault::GuardsWhenFired) && !self.r.widget.guard_holds(self.chart.transitions[t].guard);
            if !late {
                self.fire(t)?;
            }
        }
        Ok(!chosen.is_empty())
    }

    fn settle(&mut self) -> Result<(), Refused> {
        for _ in 0..NULL_STEPS {
            if !self.step(0, 0)? {
                return Ok(());
            }
        }
        if self.chosen(0).is_empty() { Ok(()) } else { refused(12, 0) }
    }

    fn done(self) -> Done {
        Done { widget: self.r.widget, trace: self.r.trace }
    }
}

fn runner(chart: &Chart, widget: Widget, lent: usize) -> Runner<'_> {
    Runner { chart, r: Reaction { widget, trace: Vec::new(), lent, variables: &chart.variables, arg: 0 } }
}

/// Starts a widget, with so many numbers lent for the trace.
pub fn start(c: &Chart, lent: usize) -> Result<Done, Refused> {
    let mut run = runner(c, Widget::fresh(&c.variables), lent);
    run.enter(0)?;
    run.below(0, &Way::Defaults)?;
    run.settle()?;
    Ok(run.done())
}

fn tested(c: &Chart, w: &Widget) -> Result<(), Refused> {
    if !w.started {
        return refused(7, 0);
    }
    if is_own(c, w) { Ok(()) } else { refused(6, 0) }
}

pub fn run(c: &Chart, w: &Widget, lent: usize) -> Result<Done, Refused> {
    tested(c, w)?;
    let mut after = w.clone();
    let (event, arg) = after.remove()?;
    let idle = fault::is(Fault::IdleAfterFirst) && after.slots[0] != -1;
    let mut run = runner(c, after, lent);
    if idle {
        return Ok(run.done());
    }
    run.step(event, arg)?;
    run.settle()?;
    Ok(run.done())
}

pub fn post(c: &Chart, w: &Widget, event: i64, arg: i64) -> Result<Widget, Refused> {
    tested(c, w)?;
    let fits = (1..=c.events).contains(&event) && in_range(arg);
    let mut after = w.clone();
    if fault::is(Fault::FullBeforeEvent) {
        after.append(event, arg)?;
        return if fits { Ok(after) } else { refused(10, 0) };
    }
    if !fits {
        return refused(10, 0);
    }
    after.append(event, arg)?;
    Ok(after)
}

pub fn discard(c: &Chart, w: &Widget) -> Result<Widget, Refused> {
    tested(c, w)?;
    let mut after = w.clone();
    after.remove()?;
    Ok(after)
}
