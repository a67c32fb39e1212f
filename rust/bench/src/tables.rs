//! A chart made ready to be run: transitions by trigger in choosing order, spans and ways worked out once, actions by owner.

use oracle::chart::{self, Kind, Owner, Sign, Target};
use oracle::widget::{STATES, VARIABLES};
use oracle::MOST;

#[derive(Clone, Copy)]
pub enum Act {
    Set(usize, i32),
    Add(usize, i32),
    Take(usize),
    Send(i32, i32),
    Tell(i32),
}

impl From<chart::Act> for Act {
    fn from(act: chart::Act) -> Act {
        match act {
            chart::Act::Set(v, x) => Act::Set(v as usize, x as i32),
            chart::Act::Add(v, x) => Act::Add(v as usize, x as i32),
            chart::Act::Take(v) => Act::Take(v as usize),
            chart::Act::Send(e, x) => Act::Send(e as i32, x as i32),
            chart::Act::Tell(x) => Act::Tell(x as i32),
        }
    }
}

#[derive(Clone, Copy, Default)]
pub struct Span {
    pub from: u16,
    pub to: u16,
}

#[derive(Clone, Copy)]
pub enum Goal {
    InPlace,
    State,
    History,
}

#[derive(Clone, Copy)]
pub struct Guard {
    pub variable: usize,
    pub sign: Sign,
    pub constant: i32,
}

impl From<chart::Guard> for Guard {
    fn from(g: chart::Guard) -> Guard {
        Guard { variable: g.variable as usize, sign: g.sign, constant: g.constant as i32 }
    }
}

#[derive(Clone, Copy)]
pub struct Transition {
    pub number: i32,
    pub source: usize,
    pub guard: Option<Guard>,
    pub goal: Goal,
    pub scope: usize,
    pub aim: usize,
    /// The states that it may leave.
    pub span: u64,
    /// The states from below the scope to the aim.
    pub way: u64,
    pub acts: Span,
}

/// A chart, ready to be run.
pub struct Chart {
    pub states: usize,
    pub variables: usize,
    pub events: i32,
    pub ranges: [(i32, i32, i32); VARIABLES],
    pub kind: [Kind; STATES],
    pub default: [usize; STATES],
    /// The o parent, whose slot holds a state that is left.
    pub o_parent: [Option<u8>; STATES],
    pub children: [u64; STATES],
    pub transitions: Vec<Transition>,
    pub by_trigger: [Span; 33],
    pub acts: Vec<Act>,
    pub entry: [Span; STATES],
    pub exit: [Span; STATES],
    pub on_default: [Span; STATES],
}

fn set(states: impl IntoIterator<Item = usize>) -> u64 {
    states.into_iter().fold(0, |set, s| set | 1 << s)
}

impl Chart {
    /// The tables of a chart that keeps the rules.
    pub fn new(c: &chart::Chart) -> Chart {
        let mut made = Chart {
            states: c.states.len(),
            variables: c.variables.len(),
            events: c.events as i32,
            ranges: [(0, 0, 0); VARIABLES],
            kind: [Kind::B; STATES],
            default: [0; STATES],
            o_parent: [None; STATES],
            children: [0; STATES],
            transitions: Vec::new(),
            by_trigger: [Span::default(); 33],
            acts: Vec::new(),
            entry: [Span::default(); STATES],
            exit: [Span::default(); STATES],
            on_default: [Span::default(); STATES],
        };
        for (v, row) in c.variables.iter().enumerate() {
            made.ranges[v] = (row.low as i32, row.high as i32, row.first as i32);
        }
        for s in 0..c.states.len() {
            made.state(c, s);
        }
        for trigger in 0..=c.events {
            let from = made.transitions.len() as u16;
            for t in c.choosing_order().into_iter().filter(|&t| c.transitions[t].trigger == trigger) {
                let row = made.transition(c, t);
                made.transitions.push(row);
            }
            made.by_trigger[trigger as usize] = Span { from, to: made.transitions.len() as u16 };
        }
        made
    }

    fn owned(&mut self, c: &chart::Chart, owner: Owner) -> Span {
        let from = self.acts.len() as u16;
        self.acts.extend(c.acts(owner).into_iter().map(Act::from));
        Span { from, to: self.acts.len() as u16 }
    }

    fn state(&mut self, c: &chart::Chart, s: usize) {
        self.kind[s] = c.kind(s);
        self.default[s] = c.default_child(s);
        self.o_parent[s] = c.parent(s).filter(|&p| c.kind(p) == Kind::O).map(|p| p as u8);
        self.children[s] = set(c.children(s));
        self.entry[s] = self.owned(c, Owner::Entry(s as i64));
        self.exit[s] = self.owned(c, Owner::Exit(s as i64));
        self.on_default[s] = self.owned(c, Owner::Default(s as i64));
    }

    fn transition(&mut self, c: &chart::Chart, t: usize) -> Transition {
        let row = &c.transitions[t];
        let source = row.source as usize;
        let aim = c.aim(t).unwrap_or(source);
        let scope = c.scope(source, aim);
        let above_scope = set(c.ancestors(scope)) | 1 << scope;
        Transition {
            number: t as i32,
            source,
            guard: row.guard.map(Guard::from),
            goal: match row.target {
                Target::InPlace => Goal::InPlace,
                Target::State(_) => Goal::State,
                Target::History(_) => Goal::History,
            },
            scope,
            aim,
            span: set(c.span(t)),
            way: (set(c.ancestors(aim)) | 1 << aim) & !above_scope,
            acts: self.owned(c, Owner::Transition(t as i64)),
        }
    }

    /// Whether an event with its argument may be posted.
    pub fn takes(&self, event: i32, arg: i32) -> bool {
        (1..=self.events).contains(&event) && i64::from(arg).abs() <= MOST
    }

    /// Whether the values of variables, and 0 past them, are in their ranges.
    pub fn values_fit(&self, vars: &[i32; VARIABLES]) -> bool {
        let ranges = &self.ranges;
        (0..VARIABLES).all(|v| if v < self.variables { ranges[v].0 <= vars[v] && vars[v] <= ranges[v].1 } else { vars[v] == 0 })
    }
}

/// Whether a guard holds of values.
#[inline(always)]
pub fn holds(guard: Option<Guard>, vars: &[i32; VARIABLES]) -> bool {
    guard.map_or(true, |g| {
        let x = vars[g.variable];
        match g.sign {
            Sign::Equal => x == g.constant,
            Sign::Less => x < g.constant,
            Sign::More => x > g.constant,
        }
    })
}
