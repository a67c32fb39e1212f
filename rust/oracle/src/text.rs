//! Chart texts, read and written.

use crate::chart::{Act, Action, Chart, Guard, Kind, Owner, Sign, State, Target, Transition, Variable};
use crate::{fault, refused, rules, Refused, MOST};

const LONGEST: usize = 32_768;
const STATES: usize = 64;
const VARIABLES: usize = 16;
const EVENTS: i64 = 32;
const TRANSITIONS: usize = 128;
const ACTIONS: usize = 256;

/// What is wrong with a line: its form, place or number in turn (1), or a size (2).
#[derive(Clone, Copy, PartialEq, Eq, PartialOrd, Ord)]
enum Fault {
    Form,
    Size,
}

/// A field that was read, or what is wrong with it. All fields of a line are looked at before a size counts.
type Field<T> = Result<T, Fault>;

fn number(b: &[u8]) -> Field<i64> {
    let (digits, minus) = match b {
        [b'-', rest @ ..] => (rest, true),
        _ => (b, false),
    };
    let plain = !digits.is_empty() && digits.iter().all(u8::is_ascii_digit);
    if !plain || (digits[0] == b'0' && (digits.len() > 1 || minus)) {
        return Err(Fault::Form);
    }
    let size = digits.iter().fold(0i64, |n, d| (n * 10 + i64::from(d - b'0')).min(MOST + 1));
    if size > MOST {
        return Err(Fault::Size);
    }
    Ok(if minus { -size } else { size })
}

fn absent(b: &[u8]) -> Field<()> {
    if b == b"-" { Ok(()) } else { Err(Fault::Form) }
}

fn in_turn(b: &[u8], turn: usize) -> Field<()> {
    if b == turn.to_string().as_bytes() { Ok(()) } else { Err(Fault::Form) }
}

fn room(turn: usize, most: usize) -> Field<()> {
    if turn < most { Ok(()) } else { Err(Fault::Size) }
}

/// The worst of some fields: a form before a size.
fn all(faults: &[Option<Fault>]) -> Field<()> {
    let found = faults.iter().flatten();
    let worst = if fault::is(fault::Fault::SizeBeforeForm) { found.max() } else { found.min() };
    worst.map_or(Ok(()), |f| Err(*f))
}

fn wrong<T>(f: &Field<T>) -> Option<Fault> {
    f.as_ref().err().copied()
}

fn state(f: &[&[u8]], turn: usize) -> Field<State> {
    let (n, parent, kind, default) = match f {
        [_, n, parent, kind, default] => (n, parent, kind, default),
        _ => return Err(Fault::Form),
    };
    let kind = match *kind {
        b"o" => Ok(Kind::O),
        b"a" => Ok(Kind::A),
        b"b" => Ok(Kind::B),
        _ => Err(Fault::Form),
    };
    let parent = if turn == 0 { absent(parent).map(|()| None) } else { number(parent).map(Some) };
    let default = if kind == Ok(Kind::O) { number(default).map(Some) } else { absent(default).map(|()| None) };
    all(&[wrong(&in_turn(n, turn)), wrong(&parent), wrong(&kind), wrong(&default), wrong(&room(turn, STATES))])?;
    Ok(State { parent: parent?, kind: kind?, default: default? })
}

fn variable(f: &[&[u8]], turn: usize) -> Field<Variable> {
    let (n, low, high, first) = match f {
        [_, n, low, high, first] => (n, low, high, first),
        _ => return Err(Fault::Form),
    };
    let (low, high, first) = (number(low), number(high), number(first));
    all(&[wrong(&in_turn(n, turn)), wrong(&low), wrong(&high), wrong(&first), wrong(&room(turn, VARIABLES))])?;
    Ok(Variable { low: low?, high: high?, first: first? })
}

fn events(f: &[&[u8]]) -> Field<i64> {
    let count = match f {
        [_, count] => count,
        _ => return Err(Fault::Form),
    };
    let n = number(count)?;
    if (0..=EVENTS).contains(&n) { Ok(n) } else { Err(Fault::Size) }
}

fn guard(v: &[u8], g: &[u8], x: &[u8]) -> Field<Option<Guard>> {
    if v == b"-" && g == b"-" && x == b"-" {
        return Ok(None);
    }
    let sign = match g {
        b"=" => Ok(Sign::Equal),
        b"<" => Ok(Sign::Less),
        b">" => Ok(Sign::More),
        _ => Err(Fault::Form),
    };
    let (variable, constant) = (number(v), number(x));
    all(&[wrong(&variable), wrong(&sign), wrong(&constant)])?;
    Ok(Some(Guard { variable: variable?, sign: sign?, constant: constant? }))
}

fn target(b: &[u8]) -> Field<Target> {
    match b {
        b"-" => Ok(Target::InPlace),
        [b'h', rest @ ..] => number(rest).map(Target::History),
        _ => number(b).map(Target::State),
    }
}

fn transition(f: &[&[u8]], turn: usize) -> Field<Transition> {
    let (n, source, trigger, v, g, x, aim) = match f {
        [_, n, source, trigger, v, g, x, aim] => (n, source, trigger, v, g, x, aim),
        _ => return Err(Fault::Form),
    };
    let (source, trigger, guard, target) = (number(source), number(trigger), guard(v, g, x), target(aim));
    let room = room(turn, TRANSITIONS);
    all(&[wrong(&in_turn(n, turn)), wrong(&source), wrong(&trigger), wrong(&guard), wrong(&target), wrong(&room)])?;
    Ok(Transition { source: source?, trigger: trigger?, guard: guard?, target: target? })
}

fn action(f: &[&[u8]], turn: usize) -> Field<Action> {
    let (kind, owner, act, first, second) = match f {
        [_, kind, owner, act, first, second] => (kind, owner, act, first, second),
        _ => return Err(Fault::Form),
    };
    let (owner, first) = (number(owner), number(first));
    let second = match *act {
        b"s" | b"a" | b"q" => number(second),
        b"k" | b"o" => absent(second).map(|()| 0),
        _ => Err(Fault::Form),
    };
    let kind_known = if matches!(*kind, b"e" | b"x" | b"d" | b"t") { Ok(()) } else { Err(Fault::Form) };
    all(&[wrong(&kind_known), wrong(&owner), wrong(&first), wrong(&second), wrong(&room(turn, ACTIONS))])?;
    let (o, x, y) = (owner?, first?, second?);
    let owner = match *kind {
        b"e" => Owner::Entry(o),
        b"x" => Owner::Exit(o),
        b"d" => Owner::Default(o),
        _ => Owner::Transition(o),
    };
    let act = match *act {
        b"s" => Act::Set(x, y),
        b"a" => Act::Add(x, y),
        b"k" => Act::Take(x),
        b"q" => Act::Send(x, y),
        _ => Act::Tell(x),
    };
    Ok(Action { owner, act })
}

/// Records stand in the order S, V, one E, T, A: the stage that a record belongs to, and from which stages it may follow.
fn stage(record: &[u8], now: usize) -> Field<usize> {
    let (own, from) = match record {
        b"S" => (0, 0),
        b"V" => (1, 0),
        b"E" => (2, 0),
        b"T" => (3, 2),
        b"A" => (4, 2),
        _ => return Err(Fault::Form),
    };
    let fits = now >= from && now <= own && !(own == 2 && now == 2);
    if fits { Ok(own) } else { Err(Fault::Form) }
}

fn line(c: &mut Chart, now: usize, line: &[u8]) -> Field<usize> {
    let f: Vec<&[u8]> = line.split(|&b| b == b'\t').collect();
    let next = stage(f[0], now)?;
    match next {
        0 => c.states.push(state(&f, c.states.len())?),
        1 => c.variables.push(variable(&f, c.variables.len())?),
        2 => c.events = events(&f)?,
        3 => c.transitions.push(transition(&f, c.transitions.len())?),
        _ => c.actions.push(action(&f, c.actions.len())?),
    }
    Ok(next)
}

/// The chart that a text states, without the rules.
pub fn lines(text: &[u8]) -> Result<Chart, Refused> {
    if text.len() > LONGEST {
        return refused(2, 0);
    }
    let mut c = Chart::default();
    let mut now = 0;
    let mut pieces: Vec<&[u8]> = text.split(|&b| b == b'\n').collect();
    let last = pieces.pop().unwrap_or(b"");
    for (i, piece) in pieces.iter().enumerate() {
        match line(&mut c, now, piece) {
            Ok(next) => now = next,
            Err(Fault::Form) => return refused(1, i as u32 + 1),
            Err(Fault::Size) => return refused(2, i as u32 + 1),
        }
    }
    if !last.is_empty() || now < 2 {
        return refused(1, pieces.len() as u32 + 1);
    }
    Ok(c)
}

/// A chart that was read, where it passes the rules.
pub fn ruled(c: Chart) -> Result<Chart, Refused> {
    match rules::failing(&c) {
        Some(rule) => refused(3, rule),
        None => Ok(c),
    }
}

/// Reads a chart text: the first faulty line, or the first rule that fails, or the chart.
pub fn read(text: &[u8]) -> Result<Chart, Refused> {
    ruled(lines(text)?)
}

fn or_dash(n: Option<i64>) -> String {
    n.map_or("-".to_string(), |n| n.to_string())
}

fn transition_fields(t: &Transition) -> String {
    let guard = t.guard.map_or("-\t-\t-".to_string(), |g| {
        let sign = match g.sign {
            Sign::Equal => '=',
            Sign::Less => '<',
            Sign::More => '>',
        };
        format!("{}\t{sign}\t{}", g.variable, g.constant)
    });
    let target = match t.target {
        Target::State(d) => d.to_string(),
        Target::History(b) => format!("h{b}"),
        Target::InPlace => "-".to_string(),
    };
    format!("{}\t{}\t{guard}\t{target}", t.source, t.trigger)
}

fn action_fields(a: &Action) -> String {
    let (kind, owner) = match a.owner {
        Owner::Entry(n) => ('e', n),
        Owner::Exit(n) => ('x', n),
        Owner::Default(n) => ('d', n),
        Owner::Transition(n) => ('t', n),
    };
    let act = match a.act {
        Act::Set(v, x) => format!("s\t{v}\t{x}"),
        Act::Add(v, x) => format!("a\t{v}\t{x}"),
        Act::Take(v) => format!("k\t{v}\t-"),
        Act::Send(e, x) => format!("q\t{e}\t{x}"),
        Act::Tell(x) => format!("o\t{x}\t-"),
    };
    format!("{kind}\t{owner}\t{act}")
}

/// Writes a chart as text.
pub fn write(c: &Chart) -> Vec<u8> {
    let mut out = String::new();
    for (n, s) in c.states.iter().enumerate() {
        let kind = match s.kind {
            Kind::O => 'o',
            Kind::A => 'a',
            Kind::B => 'b',
        };
        out += &format!("S\t{n}\t{}\t{kind}\t{}\n", or_dash(s.parent), or_dash(s.default));
    }
    for (n, v) in c.variables.iter().enumerate() {
        out += &format!("V\t{n}\t{}\t{}\t{}\n", v.low, v.high, v.first);
    }
    out += &format!("E\t{}\n", c.events);
    for (n, t) in c.transitions.iter().enumerate() {
        out += &format!("T\t{n}\t{}\n", transition_fields(t));
    }
    for a in &c.actions {
        out += &format!("A\t{}\n", action_fields(a));
    }
    out.into_bytes()
}
