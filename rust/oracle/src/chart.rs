//! The chart as it is drawn: states, variables, events, transitions, actions; and its tree.

use crate::fault::{self, Fault};

/// Kind of a state: one child at a time, all children at once, no children.
#[derive(Clone, Copy, Debug, PartialEq, Eq)]
pub enum Kind {
    O,
    A,
    B,
}

#[derive(Clone, Copy, Debug, PartialEq, Eq)]
pub enum Sign {
    Equal,
    Less,
    More,
}

#[derive(Clone, Debug, PartialEq, Eq)]
pub struct State {
    pub parent: Option<i64>,
    pub kind: Kind,
    pub default: Option<i64>,
}

#[derive(Clone, Debug, PartialEq, Eq)]
pub struct Variable {
    pub low: i64,
    pub high: i64,
    pub first: i64,
}

#[derive(Clone, Copy, Debug, PartialEq, Eq)]
pub struct Guard {
    pub variable: i64,
    pub sign: Sign,
    pub constant: i64,
}

#[derive(Clone, Copy, Debug, PartialEq, Eq)]
pub enum Target {
    State(i64),
    History(i64),
    InPlace,
}

#[derive(Clone, Debug, PartialEq, Eq)]
pub struct Transition {
    pub source: i64,
    pub trigger: i64,
    pub guard: Option<Guard>,
    pub target: Target,
}

#[derive(Clone, Copy, Debug, PartialEq, Eq)]
pub enum Owner {
    Entry(i64),
    Exit(i64),
    Default(i64),
    Transition(i64),
}

#[derive(Clone, Copy, Debug, PartialEq, Eq)]
pub enum Act {
    Set(i64, i64),
    Add(i64, i64),
    Take(i64),
    Send(i64, i64),
    Tell(i64),
}

#[derive(Clone, Debug, PartialEq, Eq)]
pub struct Action {
    pub owner: Owner,
    pub act: Act,
}

#[derive(Clone, Debug, Default, PartialEq, Eq)]
pub struct Chart {
    pub states: Vec<State>,
    pub variables: Vec<Variable>,
    pub events: i64,
    pub transitions: Vec<Transition>,
    pub actions: Vec<Action>,
}

/// The tree, for charts that pass the rules: every number that names a state names one.
impl Chart {
    pub fn kind(&self, s: usize) -> Kind {
        self.states[s].kind
    }

    pub fn parent(&self, s: usize) -> Option<usize> {
        self.states[s].parent.map(|p| p as usize)
    }

    pub fn default_child(&self, s: usize) -> usize {
        self.states[s].default.unwrap_or(0) as usize
    }

    /// The proper ancestors of a state, the nearest first.
    pub fn ancestors(&self, s: usize) -> Vec<usize> {
        let mut up = Vec::new();
        let mut at = self.parent(s);
        while let Some(p) = at {
            up.push(p);
            at = self.parent(p);
        }
        up
    }

    pub fn is_below(&self, above: usize, s: usize) -> bool {
        self.ancestors(s).contains(&above)
    }

    pub fn children(&self, s: usize) -> Vec<usize> {
        (0..self.states.len()).filter(|&d| self.parent(d) == Some(s)).collect()
    }

    /// The proper descendants of a state, rising.
    pub fn descendants(&self, s: usize) -> Vec<usize> {
        (0..self.states.len()).filter(|&d| self.is_below(s, d)).collect()
    }

    /// The lowest o state that is a proper ancestor of both.
    pub fn scope(&self, source: usize, target: usize) -> usize {
        let of_target = self.ancestors(target);
        if fault::is(Fault::SpanOfOneComponent) && source == target && self.parent(source).map(|p| self.kind(p)) == Some(Kind::A) {
            return source;
        }
        self.ancestors(source).into_iter().find(|a| self.kind(*a) == Kind::O && of_target.contains(a)).unwrap_or(0)
    }

    /// The state that a transition aims at: its target, or the owner of its history.
    pub fn aim(&self, t: usize) -> Option<usize> {
        match self.transitions[t].target {
            Target::State(d) | Target::History(d) => Some(d as usize),
            Target::InPlace => None,
        }
    }

    /// What a transition may leave, rising.
    pub fn span(&self, t: usize) -> Vec<usize> {
        let source = self.transitions[t].source as usize;
        match self.aim(t) {
            Some(aim) => self.descendants(self.scope(source, aim)),
            None => std::iter::once(source).chain(self.descendants(source)).collect(),
        }
    }

    /// An owner's acts, in line order.
    pub fn acts(&self, owner: Owner) -> Vec<Act> {
        self.actions.iter().filter(|a| a.owner == owner).map(|a| a.act).collect()
    }

    /// All transitions in choosing order: by falling source, then by rising number.
    pub fn choosing_order(&self) -> Vec<usize> {
        let mut order: Vec<usize> = (0..self.transitions.len()).collect();
        order.sort_by_key(|&t| (-self.transitions[t].source, t));
        order
    }
}
