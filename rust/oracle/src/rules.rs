//! The chart rules R1 to R7, in order; the first that fails is named.

use crate::chart::{Act, Chart, Kind, Owner, Target};

fn names(count: usize, n: i64) -> bool {
    n >= 0 && (n as usize) < count
}

fn r1(c: &Chart) -> bool {
    c.states.len() >= 2 && c.states[0].kind == Kind::O
}

/// The parent of a state n > 0 is n-1 or an ancestor of n-1.
fn r2(c: &Chart) -> bool {
    for n in 1..c.states.len() {
        let p = match c.states[n].parent {
            Some(p) => p,
            None => return false,
        };
        let mut at = Some(n as i64 - 1);
        while let Some(s) = at {
            if s == p {
                break;
            }
            at = c.states[s as usize].parent;
        }
        if at.is_none() {
            return false;
        }
    }
    true
}

fn r3(c: &Chart) -> bool {
    (0..c.states.len()).all(|s| {
        let children = c.children(s);
        match c.kind(s) {
            Kind::B => children.is_empty(),
            Kind::O => !children.is_empty(),
            Kind::A => children.len() >= 2 && children.iter().all(|&d| c.kind(d) == Kind::O),
        }
    })
}

fn r4(c: &Chart) -> bool {
    (0..c.states.len()).all(|s| match (c.kind(s), c.states[s].default) {
        (Kind::O, Some(d)) => names(c.states.len(), d) && c.parent(d as usize) == Some(s),
        (Kind::O, None) => false,
        _ => true,
    })
}

fn r5(c: &Chart) -> bool {
    c.variables.iter().all(|v| v.low <= v.first && v.first <= v.high)
}

fn r6(c: &Chart) -> bool {
    let states = c.states.len();
    c.transitions.iter().all(|t| {
        let guard = t.guard.map_or(true, |g| names(c.variables.len(), g.variable));
        let target = match t.target {
            Target::State(d) => names(states, d) && d != 0 && t.source != 0,
            Target::History(b) => names(states, b) && b != 0 && c.kind(b as usize) == Kind::O && t.source != 0,
            Target::InPlace => true,
        };
        names(states, t.source) && (0..=c.events).contains(&t.trigger) && guard && target
    })
}

fn r7(c: &Chart) -> bool {
    let (states, variables) = (c.states.len(), c.variables.len());
    c.actions.iter().all(|a| {
        let owner = match a.owner {
            Owner::Entry(s) | Owner::Exit(s) => names(states, s),
            Owner::Default(s) => names(states, s) && c.kind(s as usize) == Kind::O,
            Owner::Transition(t) => names(c.transitions.len(), t),
        };
        let act = match a.act {
            Act::Set(v, x) => names(variables, v) && (c.variables[v as usize].low..=c.variables[v as usize].high).contains(&x),
            Act::Add(v, _) | Act::Take(v) => names(variables, v),
            Act::Send(e, _) => (1..=c.events).contains(&e),
            Act::Tell(_) => true,
        };
        owner && act
    })
}

/// The number of the first rule that fails.
pub fn failing(c: &Chart) -> Option<u32> {
    let rules: [fn(&Chart) -> bool; 7] = [r1, r2, r3, r4, r5, r6, r7];
    rules.iter().position(|rule| !rule(c)).map(|i| i as u32 + 1)
}
