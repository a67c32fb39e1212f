//! An interpreter of charts that walks the tree, as a good programmer writes it who has not set out to win a race: a state is a node with its
//! children and its actions, marks are bools, transitions are found by trigger and their spans are worked out once; nothing is allocated in a
//! call. The tests check it against the plain interpreter.

use crate::tables::{holds, Act, Guard};
use oracle::chart::{self, Kind, Owner, Target};
use oracle::widget::{NULL_STEPS, QUEUE, STATES, VARIABLES};
use oracle::MOST;
use std::ops::Range;

/// A widget's state.
#[derive(Clone, Copy, Debug, PartialEq, Eq)]
pub struct Widget {
    pub started: bool,
    pub active: [bool; STATES],
    pub slots: [Option<u8>; STATES],
    pub vars: [i32; VARIABLES],
    pub length: usize,
    pub places: [(i32, i32); QUEUE],
}

impl Widget {
    pub fn unstarted() -> Widget {
        Widget { started: false, active: [false; STATES], slots: [None; STATES], vars: [0; VARIABLES], length: 0, places: [(0, 0); QUEUE] }
    }

    /// Its numbers, as the engine has them.
    pub fn numbers(&self) -> Vec<i32> {
        let mut ns = vec![self.started as i32];
        ns.extend(self.active.map(i32::from));
        ns.extend(self.slots.map(|slot| slot.map_or(-1, i32::from)));
        ns.extend(self.vars);
        ns.push(self.length as i32);
        ns.extend(self.places.iter().flat_map(|&(e, a)| [e, a]));
        ns
    }

    fn append(&mut self, event: i32, arg: i32) -> Step {
        if self.length >= QUEUE {
            return Err(9);
        }
        self.places[self.length] = (event, arg);
        self.length += 1;
        Ok(())
    }

    fn remove(&mut self) -> Result<(i32, i32), i32> {
        if self.length == 0 {
            return Err(8);
        }
        let front = self.places[0];
        self.places.copy_within(1..self.length, 0);
        self.length -= 1;
        self.places[self.length] = (0, 0);
        Ok(front)
    }
}

struct Node {
    kind: Kind,
    parent: usize,
    /// One past its last descendant.
    end: usize,
    default: usize,
    children: Vec<usize>,
    entry: Vec<Act>,
    exit: Vec<Act>,
    on_default: Vec<Act>,
}

struct Transition {
    number: i32,
    source: usize,
    guard: Option<Guard>,
    target: Target,
    scope: usize,
    span: Range<usize>,
    acts: Vec<Act>,
}

/// A chart, ready to be run.
pub struct Chart {
    nodes: Vec<Node>,
    events: i32,
    ranges: Vec<(i32, i32, i32)>,
    by_trigger: Vec<Vec<Transition>>,
}

/// A reaction under way.
struct Reaction<'a> {
    chart: &'a Chart,
    widget: &'a mut Widget,
    trace: &'a mut [i32],
    at: usize,
    arg: i32,
}

type Step = Result<(), i32>;

impl Reaction<'_> {
    fn entry(&mut self, kind: i32, a: i32, b: i32) -> Step {
        let room = self.trace.get_mut(self.at..self.at + 3).ok_or(11)?;
        room.copy_from_slice(&[kind, a, b]);
        self.at += 3;
        Ok(())
    }

    fn assign(&mut self, v: usize, x: i32) -> Step {
        let (low, high, _) = self.chart.ranges[v];
        let held = x.clamp(low, high);
        self.entry(4, v as i32, held)?;
        self.widget.vars[v] = held;
        Ok(())
    }

    fn acts(&mut self, acts: &[Act]) -> Step {
        for act in acts {
            match *act {
                Act::Set(v, x) => self.assign(v, x)?,
                Act::Add(v, x) => self.assign(v, self.widget.vars[v] + x)?,
                Act::Take(v) => self.assign(v, self.arg)?,
                Act::Send(e, x) => {
                    self.entry(5, e, x)?;
                    self.widget.append(e, x)?;
                }
                Act::Tell(x) => self.entry(6, x, 0)?,
            }
        }
        Ok(())
    }

    fn enter(&mut self, s: usize) -> Step {
        self.entry(3, s as i32, 0)?;
        self.widget.active[s] = true;
        self.acts(&self.chart.nodes[s].entry)
    }

    fn leave(&mut self, s: usize) -> Step {
        let chart = self.chart;
        self.entry(2, s as i32, 0)?;
        self.widget.active[s] = false;
        let p = chart.nodes[s].parent;
        if s != 0 && chart.nodes[p].kind == Kind::O {
            self.widget.slots[p] = Some(s as u8);
        }
        self.acts(&chart.nodes[s].exit)
    }

    /// What belongs below a state that is in, by defaults.
    fn by_default(&mut self, s: usize) -> Step {
        let node = &self.chart.nodes[s];
        match node.kind {
            Kind::B => Ok(()),
            Kind::O => {
                self.acts(&node.on_default)?;
                self.enter(node.default)?;
                self.by_default(node.default)
            }
            Kind::A => node.children.iter().try_for_each(|&d| {
                self.enter(d)?;
                self.by_default(d)
            }),
        }
    }

    /// What belongs below a state that is in, by the slots.
    fn by_slots(&mut self, s: usize) -> Step {
        let node = &self.chart.nodes[s];
        match node.kind {
            Kind::B => Ok(()),
            Kind::O => {
                let d = usize::from(self.widget.slots[s].ok_or(14)?);
                self.enter(d)?;
                self.by_slots(d)
            }
            Kind::A => node.children.iter().try_for_each(|&d| {
                self.enter(d)?;
                self.by_slots(d)
            }),
        }
    }

    /// What belongs below a state that is in, towards the state aimed at.
    fn towards(&mut self, s: usize, aim: usize, history: bool) -> Step {
        let chart = self.chart;
        let node = &chart.nodes[s];
        if s == aim {
            return if history && self.widget.slots[s].is_some() { self.by_slots(s) } else { self.by_default(s) };
        }
        for &d in &node.children {
            let on_way = (d..chart.nodes[d].end).contains(&aim);
            if on_way || node.kind == Kind::A {
                self.enter(d)?;
                if on_way {
                    self.towards(d, aim, history)?;
                } else {
                    self.by_default(d)?;
                }
            }
        }
        Ok(())
    }

    fn fire(&mut self, t: &Transition) -> Step {
        self.entry(1, t.number, 0)?;
        let (aim, history) = match t.target {
            Target::InPlace => return self.acts(&t.acts),
            Target::State(d) => (d as usize, false),
            Target::History(d) => (d as usize, true),
        };
        for s in t.span.clone().rev() {
            if self.widget.active[s] {
                self.leave(s)?;
            }
        }
        self.acts(&t.acts)?;
        self.towards(t.scope, aim, history)
    }

    /// The enabled transitions of a trigger that are chosen, and how many.
    fn chosen(&self, trigger: usize, chosen: &mut [u8; STATES]) -> usize {
        let w = &*self.widget;
        let all = &self.chart.by_trigger[trigger];
        let mut count = 0;
        for (i, t) in all.iter().enumerate() {
            if w.active[t.source] && holds(t.guard, &w.vars) {
                let meets = |&j: &u8| {
                    let other = &all[usize::from(j)].span;
                    other.start < t.span.end && t.span.start < other.end
                };
                if !chosen[..count].iter().any(meets) {
                    chosen[count] = i as u8;
                    count += 1;
                }
            }
        }
        count
    }

    /// One step; whether anything was chosen.
    fn step(&mut self, trigger: usize, arg: i32) -> Result<bool, i32> {
        let mut chosen = [0; STATES];
        let count = self.chosen(trigger, &mut chosen);
        self.arg = arg;
        let chart = self.chart;
        for &i in &chosen[..count] {
            self.fire(&chart.by_trigger[trigger][usize::from(i)])?;
        }
        Ok(count > 0)
    }

    fn settle(&mut self) -> Step {
        for _ in 0..NULL_STEPS {
            if !self.step(0, 0)? {
                return Ok(());
            }
        }
        if self.chosen(0, &mut [0; STATES]) == 0 { Ok(()) } else { Err(12) }
    }
}

impl Chart {
    /// The nodes and transitions of a chart that keeps the rules.
    pub fn new(c: &chart::Chart) -> Chart {
        let acts = |owner| c.acts(owner).into_iter().map(Act::from).collect();
        let node = |s: usize| Node {
            kind: c.kind(s),
            parent: c.parent(s).unwrap_or(0),
            end: c.descendants(s).last().map_or(s + 1, |d| d + 1),
            default: c.default_child(s),
            children: c.children(s),
            entry: acts(Owner::Entry(s as i64)),
            exit: acts(Owner::Exit(s as i64)),
            on_default: acts(Owner::Default(s as i64)),
        };
        let transition = |t: usize| {
            let (row, span) = (&c.transitions[t], c.span(t));
            let source = row.source as usize;
            Transition {
                number: t as i32,
                source,
                guard: row.guard.map(Guard::from),
                target: row.target,
                scope: c.scope(source, c.aim(t).unwrap_or(source)),
                span: span[0]..span[span.len() - 1] + 1,
                acts: acts(Owner::Transition(t as i64)),
            }
        };
        let with = |trigger| c.choosing_order().into_iter().filter(move |&t| c.transitions[t].trigger == trigger);
        Chart {
            nodes: (0..c.states.len()).map(node).collect(),
            events: c.events as i32,
            ranges: c.variables.iter().map(|v| (v.low as i32, v.high as i32, v.first as i32)).collect(),
            by_trigger: (0..=c.events).map(|trigger| with(trigger).map(transition).collect()).collect(),
        }
    }

    /// The full test for 6.
    fn is_own(&self, w: &Widget) -> bool {
        let n = self.nodes.len();
        w.active[0]
            && w.active[n..].iter().all(|on| !on)
            && (0..n).all(|s| self.marks_fit(w, s))
            && (0..STATES).all(|s| self.slot_fits(w, s))
            && w.vars.iter().enumerate().all(|(v, &x)| self.ranges.get(v).map_or(x == 0, |r| r.0 <= x && x <= r.1))
            && w.length <= QUEUE
            && w.places.iter().enumerate().all(|(i, &(e, a))| if i < w.length { self.takes(e, a) } else { (e, a) == (0, 0) })
    }

    fn marks_fit(&self, w: &Widget, s: usize) -> bool {
        let node = &self.nodes[s];
        let inside = node.children.iter().filter(|&&d| w.active[d]).count();
        match node.kind {
            _ if !w.active[s] => inside == 0,
            Kind::O => inside == 1,
            Kind::A => inside == node.children.len(),
            Kind::B => true,
        }
    }

    fn slot_fits(&self, w: &Widget, s: usize) -> bool {
        let n = self.nodes.len();
        w.slots[s].map(usize::from).map_or(true, |d| {
            s < n && d < n && d != 0 && self.nodes[s].kind == Kind::O && self.nodes[d].parent == s && self.leads_on(w, d)
        })
    }

    fn leads_on(&self, w: &Widget, d: usize) -> bool {
        match self.nodes[d].kind {
            Kind::B => true,
            Kind::O => w.slots[d].is_some(),
            Kind::A => self.nodes[d].children.iter().all(|&d| w.slots[d].is_some()),
        }
    }

    fn takes(&self, event: i32, arg: i32) -> bool {
        (1..=self.events).contains(&event) && i64::from(arg).abs() <= MOST
    }

    fn tested<const TESTS: bool>(&self, w: &Widget) -> Step {
        if !w.started {
            return Err(7);
        }
        if TESTS && !self.is_own(w) {
            return Err(6);
        }
        Ok(())
    }

    fn reacted<const CLEARS: bool>(&self, w: &mut Widget, trace: &mut [i32], react: impl FnOnce(&mut Reaction) -> Step) -> (i32, usize) {
        let before = *w;
        let mut r = Reaction { chart: self, widget: w, trace, at: 0, arg: 0 };
        let (answer, end) = match react(&mut r) {
            Ok(()) => (0, r.at),
            Err(number) => (number, 0),
        };
        if answer != 0 {
            *w = before;
        }
        if CLEARS || answer != 0 {
            trace[end..].fill(0);
        }
        (answer, end / 3)
    }

    /// Starts a widget: the answer, and how many entries there are.
    pub fn start<const CLEARS: bool>(&self, w: &mut Widget, trace: &mut [i32]) -> (i32, usize) {
        self.reacted::<CLEARS>(w, trace, |r| {
            *r.widget = Widget::unstarted();
            r.widget.started = true;
            for (x, range) in r.widget.vars.iter_mut().zip(&self.ranges) {
                *x = range.2;
            }
            r.enter(0)?;
            r.by_default(0)?;
            r.settle()
        })
    }

    /// Runs the front event: the answer, and how many entries there are.
    pub fn run<const TESTS: bool, const CLEARS: bool>(&self, w: &mut Widget, trace: &mut [i32]) -> (i32, usize) {
        self.reacted::<CLEARS>(w, trace, |r| {
            self.tested::<TESTS>(r.widget)?;
            let (event, arg) = r.widget.remove()?;
            r.step(event as usize, arg)?;
            r.settle()
        })
    }

    /// Posts an event with its argument.
    pub fn post<const TESTS: bool>(&self, w: &mut Widget, event: i32, arg: i32) -> i32 {
        let posted = self.tested::<TESTS>(w).and_then(|()| if self.takes(event, arg) { w.append(event, arg) } else { Err(10) });
        posted.err().unwrap_or(0)
    }
}
