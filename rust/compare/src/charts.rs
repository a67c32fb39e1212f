//! Random charts that keep the rules: deep ones, wide ones, components within components, histories, null chains, sends that fill the queue.

use crate::dice::Dice;
use oracle::chart::{Act, Action, Chart, Guard, Kind, Owner, Sign, State, Target, Transition, Variable};
use oracle::{rules, MOST};

/// What a chart is to look like.
#[derive(Clone, Copy, Debug, PartialEq, Eq)]
pub enum Shape {
    Small,
    Deep,
    Wide,
    /// Components within components.
    Nested,
    Mixed,
    /// All sizes at their most.
    Largest,
}

const MOST_STATES: usize = 64;
const MOST_TRANSITIONS: usize = 128;
const MOST_ACTIONS: usize = 256;

struct Maker<'a> {
    dice: &'a mut Dice,
    shape: Shape,
    chart: Chart,
}

/// A random chart of a random shape; the largest ones are rare, as they are slow.
pub fn any(dice: &mut Dice) -> Chart {
    let shape = match dice.below(100) {
        0..=44 => Shape::Small,
        45..=58 => Shape::Deep,
        59..=70 => Shape::Wide,
        71..=86 => Shape::Nested,
        87..=98 => Shape::Mixed,
        _ => Shape::Largest,
    };
    of_shape(dice, shape)
}

pub fn of_shape(dice: &mut Dice, shape: Shape) -> Chart {
    let mut maker = Maker { dice, shape, chart: Chart::default() };
    maker.tree();
    maker.variables();
    maker.events();
    maker.transitions();
    maker.actions();
    maker.motifs();
    let chart = maker.chart;
    assert_eq!(rules::failing(&chart), None, "the maker of charts keeps the rules");
    chart
}

impl Maker<'_> {
    // ---- the tree

    fn tree(&mut self) {
        let states = match self.shape {
            Shape::Small => self.dice.from(2, 9),
            Shape::Deep | Shape::Wide | Shape::Mixed => self.dice.from(6, 40),
            Shape::Nested => self.dice.from(9, 40),
            Shape::Largest => MOST_STATES,
        };
        self.grow(None, Kind::O, states);
    }

    /// A state with everything below it, as many states in all as said.
    fn grow(&mut self, parent: Option<usize>, kind: Kind, states: usize) {
        let own = self.chart.states.len();
        self.chart.states.push(State { parent: parent.map(|p| p as i64), kind, default: None });
        match kind {
            Kind::B => {}
            Kind::A => {
                let most = ((states - 1) / 2).min(6);
                let components = self.dice.from(2, most);
                for part in self.parts(states - 1, components, 2) {
                    self.grow(Some(own), Kind::O, part);
                }
            }
            Kind::O => {
                let children = self.children(states - 1);
                let mut first = Vec::new();
                for part in self.parts(states - 1, children, 1) {
                    first.push(self.chart.states.len());
                    let kind = self.kind(part);
                    self.grow(Some(own), kind, part);
                }
                self.chart.states[own].default = Some(self.dice.pick(&first) as i64);
            }
        }
    }

    fn children(&mut self, below: usize) -> usize {
        let most = match self.shape {
            Shape::Deep if self.dice.chance(70) => 1,
            Shape::Deep => 2,
            Shape::Nested => 3,
            Shape::Wide => below,
            _ => 5,
        };
        self.dice.from(1, most.min(below).max(1))
    }

    fn kind(&mut self, states: usize) -> Kind {
        let components = match self.shape {
            Shape::Nested => 85,
            Shape::Deep | Shape::Wide => 15,
            _ => 40,
        };
        match states {
            1 => Kind::B,
            5.. if self.dice.chance(components) => Kind::A,
            _ => Kind::O,
        }
    }

    /// So many states in so many parts, each of a least size.
    fn parts(&mut self, states: usize, parts: usize, least: usize) -> Vec<usize> {
        let mut sizes = vec![least; parts];
        for _ in 0..states - parts * least {
            let i = self.dice.below(parts);
            sizes[i] += 1;
        }
        sizes
    }

    // ---- variables and events

    fn variables(&mut self) {
        let count = match self.shape {
            Shape::Largest => 16,
            _ if self.dice.chance(5) => 16,
            _ => self.dice.below(4),
        };
        for _ in 0..count {
            let (low, high) = match self.dice.below(5) {
                0 => (0, 3),
                1 => (-100, 100),
                2 => (-MOST, MOST),
                3 => {
                    let at = self.dice.number(-MOST, MOST);
                    (at, at)
                }
                _ => (-2, self.dice.number(-2, 50)),
            };
            let first = self.dice.number(low, high);
            self.chart.variables.push(Variable { low, high, first });
        }
    }

    fn events(&mut self) {
        self.chart.events = match self.dice.below(20) {
            0 => 0,
            1 => 32,
            _ => self.dice.number(1, 4),
        };
    }

    // ---- transitions

    fn transitions(&mut self) {
        let count = match self.shape {
            Shape::Small => self.dice.below(10),
            Shape::Largest => MOST_TRANSITIONS,
            _ => self.dice.below(40),
        };
        for _ in 0..count {
            let row = self.transition();
            self.chart.transitions.push(row);
        }
    }

    fn state(&mut self) -> i64 {
        self.dice.below(self.chart.states.len()) as i64
    }

    fn transition(&mut self) -> Transition {
        let source = self.state();
        let owners: Vec<i64> = (1..self.chart.states.len()).filter(|&s| self.chart.kind(s) == Kind::O).map(|s| s as i64).collect();
        let target = match self.dice.below(10) {
            _ if source == 0 => Target::InPlace,
            0 => Target::InPlace,
            1..=3 if !owners.is_empty() => Target::History(self.dice.pick(&owners)),
            4 => Target::State(source), // itself, also where it is a component
            _ => Target::State(self.dice.number(1, self.chart.states.len() as i64 - 1)),
        };
        let null = self.chart.events == 0 || self.dice.chance(12);
        let guard = self.guard(if null { 85 } else { 35 });
        let trigger = if null { 0 } else { self.dice.number(1, self.chart.events) };
        Transition { source, trigger, guard, target }
    }

    fn guard(&mut self, percent: usize) -> Option<Guard> {
        if self.chart.variables.is_empty() || !self.dice.chance(percent) {
            return None;
        }
        let variable = self.dice.below(self.chart.variables.len());
        let row = &self.chart.variables[variable];
        let near = [row.low, row.high, row.first, row.first + 1, row.first - 1, 0, 1];
        let constant = self.dice.pick(&near).clamp(-MOST, MOST);
        let sign = self.dice.pick(&[Sign::Equal, Sign::Less, Sign::More]);
        Some(Guard { variable: variable as i64, sign, constant })
    }

    // ---- actions

    fn actions(&mut self) {
        let count = match self.shape {
            Shape::Small => self.dice.below(14),
            Shape::Largest => MOST_ACTIONS,
            _ => self.dice.below(60),
        };
        for _ in 0..count {
            let owner = self.owner();
            let act = self.act();
            self.chart.actions.push(Action { owner, act });
        }
    }

    fn owner(&mut self) -> Owner {
        let transitions = self.chart.transitions.len();
        match self.dice.below(4) {
            0 => Owner::Entry(self.state()),
            1 => Owner::Exit(self.state()),
            2 if transitions > 0 => Owner::Transition(self.dice.below(transitions) as i64),
            _ => {
                let owners: Vec<i64> = (0..self.chart.states.len()).filter(|&s| self.chart.kind(s) == Kind::O).map(|s| s as i64).collect();
                Owner::Default(self.dice.pick(&owners))
            }
        }
    }

    fn constant(&mut self) -> i64 {
        match self.dice.below(8) {
            0 => MOST,
            1 => -MOST,
            2 => self.dice.number(-MOST, MOST),
            _ => self.dice.number(-3, 3),
        }
    }

    fn act(&mut self) -> Act {
        let (variables, events) = (self.chart.variables.len(), self.chart.events);
        match self.dice.below(8) {
            0 | 1 if variables > 0 => {
                let v = self.dice.below(variables);
                let row = self.chart.variables[v].clone();
                Act::Set(v as i64, self.dice.number(row.low, row.high))
            }
            2 | 3 if variables > 0 => Act::Add(self.dice.below(variables) as i64, self.constant()),
            4 if variables > 0 => Act::Take(self.dice.below(variables) as i64),
            5 if events > 0 => Act::Send(self.dice.number(1, events), self.constant()),
            _ => Act::Tell(self.constant()),
        }
    }

    // ---- what chance alone seldom makes

    fn motifs(&mut self) {
        if self.dice.chance(25) {
            self.null_chain();
        }
        if self.dice.chance(25) {
            self.many_sends();
        }
        if self.dice.chance(40) {
            self.guarded_components();
        }
    }

    fn room(&self, transitions: usize, actions: usize) -> bool {
        let c = &self.chart;
        c.transitions.len() + transitions <= MOST_TRANSITIONS && c.actions.len() + actions <= MOST_ACTIONS && c.events > 0
    }

    fn in_place(&mut self, trigger: i64, guard: Option<Guard>) -> Owner {
        self.chart.transitions.push(Transition { source: 0, trigger, guard, target: Target::InPlace });
        Owner::Transition(self.chart.transitions.len() as i64 - 1)
    }

    /// A chain of null steps about as long as one may be, begun by an event.
    fn null_chain(&mut self) {
        if !self.room(2, 2) || self.chart.variables.len() >= 16 {
            return;
        }
        let v = self.chart.variables.len() as i64;
        let steps = self.dice.number(30, 34);
        self.chart.variables.push(Variable { low: 0, high: 50, first: 50 });
        let event = self.dice.number(1, self.chart.events);
        let begin = self.in_place(event, None);
        self.chart.actions.push(Action { owner: begin, act: Act::Set(v, 0) });
        let on = self.in_place(0, Some(Guard { variable: v, sign: Sign::Less, constant: steps }));
        self.chart.actions.push(Action { owner: on, act: Act::Add(v, 1) });
    }

    /// Two components that react to one event (or to none): the higher changes what the lower's guard asks for.
    fn guarded_components(&mut self) {
        let c = &self.chart;
        let groups: Vec<usize> = (0..c.states.len()).filter(|&s| c.kind(s) == Kind::A).collect();
        if groups.is_empty() || !self.room(3, 3) || c.variables.len() >= 16 {
            return;
        }
        let components = self.chart.children(self.dice.pick(&groups));
        let v = self.chart.variables.len() as i64;
        self.chart.variables.push(Variable { low: -1, high: 1, first: 0 });
        let event = self.dice.number(1, self.chart.events);
        let trigger = if self.dice.chance(80) { event } else { 0 };
        let guard = |constant| Some(Guard { variable: v, sign: Sign::Equal, constant });
        let moves = [(components[components.len() - 1], 1), (components[0], -1)];
        for (component, value) in moves {
            self.chart.transitions.push(Transition { source: component as i64, trigger, guard: guard(0), target: Target::InPlace });
            let owner = Owner::Transition(self.chart.transitions.len() as i64 - 1);
            self.chart.actions.push(Action { owner, act: Act::Set(v, value) });
        }
        let back = self.in_place(event, guard(-1));
        self.chart.actions.push(Action { owner: back, act: Act::Set(v, 0) });
    }

    /// About as many sends at once as the queue has places.
    fn many_sends(&mut self) {
        let sends = self.dice.from(13, 18);
        if !self.room(1, sends) {
            return;
        }
        let event = self.dice.number(1, self.chart.events);
        let owner = self.in_place(event, None);
        for i in 0..sends {
            let event = self.dice.number(1, self.chart.events);
            self.chart.actions.push(Action { owner, act: Act::Send(event, i as i64) });
        }
    }
}
