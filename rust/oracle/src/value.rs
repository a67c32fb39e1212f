//! The chart as a value: 2,421 numbers at fixed places (docs/HOST.md), and R0, the rule that is only for a chart handed over so.

use crate::chart::{Act, Action, Chart, Guard, Kind, Owner, Sign, State, Target, Transition, Variable};
use crate::{in_range, refused, text, Refused};

/// What a field that is "-" holds.
pub const ABSENT: i32 = i32::MIN;

const STATES: usize = 64;
const VARIABLES: usize = 16;
const EVENTS: i32 = 32;
const TRANSITIONS: usize = 128;
const ACTIONS: usize = 256;

/// Where the rows of each record kind begin; five counts stand before: states, variables, events, transitions, actions.
const STATES_AT: usize = 5;
const VARIABLES_AT: usize = STATES_AT + 3 * STATES;
const TRANSITIONS_AT: usize = VARIABLES_AT + 3 * VARIABLES;
const ACTIONS_AT: usize = TRANSITIONS_AT + 7 * TRANSITIONS;

/// How many numbers a chart has.
pub const NUMBERS: usize = ACTIONS_AT + 5 * ACTIONS;

// ---- numbers of a chart

fn small(n: i64) -> i32 {
    n as i32
}

fn or_absent(n: Option<i64>) -> i32 {
    n.map_or(ABSENT, small)
}

fn letter(c: char) -> i32 {
    c as i32
}

fn state_row(s: &State) -> [i32; 3] {
    let kind = match s.kind {
        Kind::O => letter('o'),
        Kind::A => letter('a'),
        Kind::B => letter('b'),
    };
    [or_absent(s.parent), kind, or_absent(s.default)]
}

fn transition_row(t: &Transition) -> [i32; 7] {
    let guard = t.guard.map_or([ABSENT; 3], |g| {
        let sign = match g.sign {
            Sign::Equal => letter('='),
            Sign::Less => letter('<'),
            Sign::More => letter('>'),
        };
        [small(g.variable), sign, small(g.constant)]
    });
    let target = match t.target {
        Target::State(s) => [0, small(s)],
        Target::History(s) => [letter('h'), small(s)],
        Target::InPlace => [ABSENT, ABSENT],
    };
    [small(t.source), small(t.trigger), guard[0], guard[1], guard[2], target[0], target[1]]
}

fn action_row(a: &Action) -> [i32; 5] {
    let (kind, owner) = match a.owner {
        Owner::Entry(n) => ('e', n),
        Owner::Exit(n) => ('x', n),
        Owner::Default(n) => ('d', n),
        Owner::Transition(n) => ('t', n),
    };
    let (act, first, second) = match a.act {
        Act::Set(v, x) => ('s', v, Some(x)),
        Act::Add(v, x) => ('a', v, Some(x)),
        Act::Take(v) => ('k', v, None),
        Act::Send(e, x) => ('q', e, Some(x)),
        Act::Tell(x) => ('o', x, None),
    };
    [letter(kind), small(owner), letter(act), small(first), or_absent(second)]
}

/// The numbers of a chart, 0 past the counts.
pub fn numbers(c: &Chart) -> Vec<i32> {
    let mut ns = vec![0; NUMBERS];
    let counts = [c.states.len(), c.variables.len(), c.events as usize, c.transitions.len(), c.actions.len()];
    for (i, n) in counts.iter().enumerate() {
        ns[i] = *n as i32;
    }
    for (i, s) in c.states.iter().enumerate() {
        ns[STATES_AT + 3 * i..][..3].copy_from_slice(&state_row(s));
    }
    for (i, v) in c.variables.iter().enumerate() {
        ns[VARIABLES_AT + 3 * i..][..3].copy_from_slice(&[small(v.low), small(v.high), small(v.first)]);
    }
    for (i, t) in c.transitions.iter().enumerate() {
        ns[TRANSITIONS_AT + 7 * i..][..7].copy_from_slice(&transition_row(t));
    }
    for (i, a) in c.actions.iter().enumerate() {
        ns[ACTIONS_AT + 5 * i..][..5].copy_from_slice(&action_row(a));
    }
    ns
}

// ---- the chart of numbers, where R0 holds

fn number(n: i32) -> Option<i64> {
    let n = i64::from(n);
    in_range(n).then_some(n)
}

fn absent(n: i32) -> Option<()> {
    (n == ABSENT).then_some(())
}

fn char_of(n: i32) -> Option<char> {
    u8::try_from(n).ok().map(char::from)
}

fn count(n: i32, least: usize, most: usize) -> Option<usize> {
    usize::try_from(n).ok().filter(|n| (least..=most).contains(n))
}

fn state(i: usize, r: &[i32]) -> Option<State> {
    let parent = if i == 0 { absent(r[0]).map(|()| None)? } else { Some(number(r[0])?) };
    let kind = match char_of(r[1])? {
        'o' => Kind::O,
        'a' => Kind::A,
        'b' => Kind::B,
        _ => return None,
    };
    let default = if kind == Kind::O { Some(number(r[2])?) } else { absent(r[2]).map(|()| None)? };
    Some(State { parent, kind, default })
}

fn variable(r: &[i32]) -> Option<Variable> {
    Some(Variable { low: number(r[0])?, high: number(r[1])?, first: number(r[2])? })
}

fn transition(r: &[i32]) -> Option<Transition> {
    let guard = if r[2..5] == [ABSENT; 3] {
        None
    } else {
        let sign = match char_of(r[3])? {
            '=' => Sign::Equal,
            '<' => Sign::Less,
            '>' => Sign::More,
            _ => return None,
        };
        Some(Guard { variable: number(r[2])?, sign, constant: number(r[4])? })
    };
    let target = match r[5] {
        ABSENT => absent(r[6]).map(|()| Target::InPlace)?,
        0 => Target::State(number(r[6])?),
        n if n == letter('h') => Target::History(number(r[6])?),
        _ => return None,
    };
    Some(Transition { source: number(r[0])?, trigger: number(r[1])?, guard, target })
}

fn action(r: &[i32]) -> Option<Action> {
    let (owner, first) = (number(r[1])?, number(r[3])?);
    let owner = match char_of(r[0])? {
        'e' => Owner::Entry(owner),
        'x' => Owner::Exit(owner),
        'd' => Owner::Default(owner),
        't' => Owner::Transition(owner),
        _ => return None,
    };
    let act = match char_of(r[2])? {
        's' => Act::Set(first, number(r[4])?),
        'a' => Act::Add(first, number(r[4])?),
        'q' => Act::Send(first, number(r[4])?),
        'k' => absent(r[4]).map(|()| Act::Take(first))?,
        'o' => absent(r[4]).map(|()| Act::Tell(first))?,
        _ => return None,
    };
    Some(Action { owner, act })
}

/// The chart that numbers state, where R0 holds; places past the counts are ignored.
pub fn chart(ns: &[i32]) -> Option<Chart> {
    let ns = ns.get(..NUMBERS)?;
    let states = count(ns[0], 2, STATES)?;
    let variables = count(ns[1], 0, VARIABLES)?;
    let events = count(ns[2], 0, EVENTS as usize)?;
    let transitions = count(ns[3], 0, TRANSITIONS)?;
    let actions = count(ns[4], 0, ACTIONS)?;
    let rows = |at: usize, count: usize, width: usize| ns[at..at + count * width].chunks(width);
    Some(Chart {
        states: rows(STATES_AT, states, 3).enumerate().map(|(i, r)| state(i, r)).collect::<Option<_>>()?,
        variables: rows(VARIABLES_AT, variables, 3).map(variable).collect::<Option<_>>()?,
        events: events as i64,
        transitions: rows(TRANSITIONS_AT, transitions, 7).map(transition).collect::<Option<_>>()?,
        actions: rows(ACTIONS_AT, actions, 5).map(action).collect::<Option<_>>()?,
    })
}

/// The chart of a value that passes R0 to R7, or the first rule that fails.
pub fn checked(ns: &[i32]) -> Result<Chart, Refused> {
    chart(ns).map_or(refused(3, 0), Ok).and_then(text::ruled)
}
