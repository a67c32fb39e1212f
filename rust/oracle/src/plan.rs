//! The plan: compiled from a chart, and examined from numbers.

use crate::chart::{Act, Chart, Guard, Kind, Owner, Sign, Target, Variable};
use crate::fault::{self, Fault};
use crate::in_range;

#[derive(Clone, Copy, Debug, PartialEq, Eq)]
pub enum Instruction {
    In(i64),
    Out(i64, i64),
    SkipOut(i64, i64),
    SkipEmpty(i64, i64),
    SkipFull(i64, i64),
    SkipNot(i64, i64, i64),
    Does(Act),
}

#[derive(Clone, Debug, PartialEq, Eq)]
pub struct Head {
    pub transition: i64,
    pub source: i64,
    pub trigger: i64,
    pub guard: Option<Guard>,
    pub first: i64,
    pub last: i64,
    pub start: usize,
    pub length: usize,
}

#[derive(Clone, Debug, PartialEq, Eq)]
pub struct Plan {
    pub states: usize,
    pub variables: Vec<Variable>,
    pub events: i64,
    pub start: usize,
    pub heads: Vec<Head>,
    pub code: Vec<Instruction>,
}

const INSTRUCTIONS: i64 = 200_000;

impl Instruction {
    fn numbers(self) -> [i64; 4] {
        match self {
            Instruction::In(s) => [1, s, 0, 0],
            Instruction::Out(s, p) => [2, s, p, 0],
            Instruction::SkipOut(s, n) => [3, s, n, 0],
            Instruction::SkipEmpty(s, n) => [4, s, n, 0],
            Instruction::SkipFull(s, n) => [5, s, n, 0],
            Instruction::SkipNot(s, d, n) => [6, s, d, n],
            Instruction::Does(Act::Set(v, x)) => [7, v, x, 0],
            Instruction::Does(Act::Add(v, x)) => [8, v, x, 0],
            Instruction::Does(Act::Take(v)) => [9, v, 0, 0],
            Instruction::Does(Act::Send(e, x)) => [10, e, x, 0],
            Instruction::Does(Act::Tell(x)) => [11, x, 0, 0],
        }
    }
}

fn sign_number(sign: Sign) -> i64 {
    match sign {
        Sign::Equal => 1,
        Sign::Less => 2,
        Sign::More => 3,
    }
}

// ---- compiling

struct Blocks<'a>(&'a Chart);

impl Blocks<'_> {
    fn acts(&self, owner: Owner) -> Vec<Instruction> {
        self.0.acts(owner).into_iter().map(Instruction::Does).collect()
    }

    fn enter(&self, s: usize) -> Vec<Instruction> {
        let mut code = vec![Instruction::In(s as i64)];
        code.extend(self.acts(Owner::Entry(s as i64)));
        code
    }

    fn exits(&self, span: &[usize]) -> Vec<Instruction> {
        let mut code = Vec::new();
        for &s in span.iter().rev() {
            let acts = self.acts(Owner::Exit(s as i64));
            let parent = self.0.parent(s).filter(|&p| self.0.kind(p) == Kind::O).map_or(-1, |p| p as i64);
            code.push(Instruction::SkipOut(s as i64, acts.len() as i64 + 1));
            code.push(Instruction::Out(s as i64, parent));
            code.extend(acts);
        }
        code
    }

    /// What is entered below s on the way to a target; a history's owner stops there with its two arms.
    fn below(&self, s: usize, aim: Option<usize>, history: bool) -> Vec<Instruction> {
        let c = self.0;
        match c.kind(s) {
            Kind::B => Vec::new(),
            Kind::A => {
                c.children(s).into_iter().flat_map(|d| [self.enter(d), self.below(d, aim, history)].concat()).collect()
            }
            Kind::O => match aim {
                Some(t) if history && t == s => self.arms(s),
                Some(t) if c.is_below(s, t) => {
                    let on = std::iter::once(t).chain(c.ancestors(t)).find(|&x| c.parent(x) == Some(s)).unwrap_or(0);
                    [self.enter(on), self.below(on, aim, history)].concat()
                }
                _ => self.by_default(s),
            },
        }
    }

    fn by_default(&self, s: usize) -> Vec<Instruction> {
        let d = self.0.default_child(s);
        [self.acts(Owner::Default(s as i64)), self.enter(d), self.below(d, None, false)].concat()
    }

    fn arms(&self, b: usize) -> Vec<Instruction> {
        let c = self.0;
        let default = self.by_default(b);
        let mut stored = Vec::new();
        for d in c.descendants(b) {
            let p = c.parent(d).unwrap_or(0);
            let enter = self.enter(d);
            let mut held = Vec::new();
            if c.kind(p) == Kind::O {
                held.push(Instruction::SkipNot(p as i64, d as i64, enter.len() as i64));
            }
            held.extend(enter);
            stored.push(Instruction::SkipOut(p as i64, held.len() as i64));
            stored.extend(held);
        }
        let mut code = vec![Instruction::SkipFull(b as i64, default.len() as i64)];
        code.extend(default);
        code.push(Instruction::SkipEmpty(b as i64, stored.len() as i64));
        code.extend(stored);
        code
    }

    fn block(&self, t: usize) -> Vec<Instruction> {
        let c = self.0;
        let own = self.acts(Owner::Transition(t as i64));
        let aim = match c.aim(t) {
            Some(aim) => aim,
            None => return own,
        };
        let scope = c.scope(c.transitions[t].source as usize, aim);
        let history = matches!(c.transitions[t].target, Target::History(_));
        [self.exits(&c.descendants(scope)), own, self.below(scope, Some(aim), history)].concat()
    }
}

/// The plan of a chart that passes the rules, as data.
pub fn plan(c: &Chart) -> Plan {
    let blocks = Blocks(c);
    let mut code = [blocks.enter(0), blocks.below(0, None, false)].concat();
    let start = code.len();
    let mut heads = Vec::new();
    for t in c.choosing_order() {
        let block = blocks.block(t);
        let span = c.span(t);
        let row = &c.transitions[t];
        heads.push(Head {
            transition: t as i64,
            source: row.source,
            trigger: row.trigger,
            guard: row.guard,
            first: span[0] as i64,
            last: span[span.len() - 1] as i64,
            start: code.len(),
            length: block.len(),
        });
        code.extend(block);
    }
    Plan { states: c.states.len(), variables: c.variables.clone(), events: c.events, start, heads, code }
}

/// The plan's numbers.
pub fn numbers(p: &Plan) -> Vec<i64> {
    let counts = [p.states, p.variables.len(), p.events as usize, p.heads.len(), p.code.len(), p.start];
    let mut out: Vec<i64> = counts.iter().map(|&n| n as i64).collect();
    out.extend(p.variables.iter().flat_map(|v| [v.low, v.high, v.first]));
    for h in &p.heads {
        let guard = h.guard.map_or([-1, 0, 0], |g| [g.variable, sign_number(g.sign), g.constant]);
        out.extend([h.transition, h.source, h.trigger]);
        out.extend(guard);
        out.extend([h.first, h.last, h.start as i64, h.length as i64]);
    }
    out.extend(p.code.iter().flat_map(|i| i.numbers()));
    out
}

// ---- examining

/// The plan that numbers state, if they are well formed.
pub fn examine(ns: &[i64]) -> Option<Plan> {
    let (states, vars, events, heads, code, start) = match *ns.get(..6)? {
        [states, vars, events, heads, code, start] => (states, vars, events, heads, code, start),
        _ => return None,
    };
    let counts = (2..=64).contains(&states)
        && (0..=16).contains(&vars)
        && (0..=32).contains(&events)
        && (0..=128).contains(&heads)
        && (0..=INSTRUCTIONS).contains(&code)
        && start >= 0;
    if !counts {
        return None;
    }
    let heads_at = 6 + 3 * vars as usize;
    let code_at = heads_at + 10 * heads as usize;
    let rows = ns.get(..code_at + 4 * code as usize)?;
    let variables = rows[6..heads_at].chunks(3).map(variable).collect::<Option<Vec<_>>>()?;
    let heads = rows[heads_at..code_at].chunks(10).map(|r| head(r, states, vars, events)).collect::<Option<Vec<_>>>()?;
    let mut ends = vec![start as usize];
    for h in &heads {
        if h.start != ends[ends.len() - 1] {
            return None;
        }
        ends.push(h.start + h.length);
    }
    if ends[ends.len() - 1] != code as usize {
        return None;
    }
    let mut instructions = Vec::new();
    for (i, row) in rows[code_at..].chunks(4).enumerate() {
        let end = ends.iter().copied().find(|&e| e > i)?;
        instructions.push(instruction(row, states, vars, events, (end - i - 1) as i64)?);
    }
    Some(Plan { states: states as usize, variables, events, start: start as usize, heads, code: instructions })
}

fn variable(r: &[i64]) -> Option<Variable> {
    let v = Variable { low: r[0], high: r[1], first: r[2] };
    let fits = r.iter().all(|n| in_range(*n)) && v.low <= v.first && v.first <= v.high;
    fits.then_some(v)
}

fn head(r: &[i64], states: i64, vars: i64, events: i64) -> Option<Head> {
    let guard = match (r[3], r[4], r[5]) {
        (-1, 0, 0) => None,
        (v, g, x) if (0..vars).contains(&v) && (1..=3).contains(&g) && in_range(x) => {
            let sign = [Sign::Equal, Sign::Less, Sign::More][g as usize - 1];
            Some(Guard { variable: v, sign, constant: x })
        }
        _ => return None,
    };
    let state = 0..states;
    let fits = (0..128).contains(&r[0])
        && state.contains(&r[1])
        && (0..=events).contains(&r[2])
        && state.contains(&r[6])
        && state.contains(&r[7])
        && r[6] <= r[7]
        && r[8] >= 0
        && r[9] >= 0;
    fits.then_some(Head {
        transition: r[0],
        source: r[1],
        trigger: r[2],
        guard,
        first: r[6],
        last: r[7],
        start: r[8] as usize,
        length: r[9] as usize,
    })
}

/// An instruction that so many follow in its block.
fn instruction(r: &[i64], states: i64, vars: i64, events: i64, left: i64) -> Option<Instruction> {
    let (x, y, z) = (r[1], r[2], r[3]);
    let state = |n: i64| (0..states).contains(&n);
    let var = |n: i64| (0..vars).contains(&n);
    let skip = |n: i64| (0..=left).contains(&n) || (n == left + 1 && fault::is(Fault::SkipPastBlock));
    let (i, fits) = match r[0] {
        1 => (Instruction::In(x), state(x) && y == 0 && z == 0),
        2 => (Instruction::Out(x, y), state(x) && (y == -1 || state(y)) && z == 0),
        3 => (Instruction::SkipOut(x, y), state(x) && skip(y) && z == 0),
        4 => (Instruction::SkipEmpty(x, y), state(x) && skip(y) && z == 0),
        5 => (Instruction::SkipFull(x, y), state(x) && skip(y) && z == 0),
        6 => (Instruction::SkipNot(x, y, z), state(x) && state(y) && skip(z)),
        7 => (Instruction::Does(Act::Set(x, y)), var(x) && in_range(y) && z == 0),
        8 => (Instruction::Does(Act::Add(x, y)), var(x) && in_range(y) && z == 0),
        9 => (Instruction::Does(Act::Take(x)), var(x) && y == 0 && z == 0),
        10 => (Instruction::Does(Act::Send(x, y)), (1..=events).contains(&x) && in_range(y) && z == 0),
        11 => (Instruction::Does(Act::Tell(x)), in_range(x) && y == 0 && z == 0),
        _ => return None,
    };
    fits.then_some(i)
}
