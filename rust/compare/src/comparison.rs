//! Calls made on both sides and compared; what was seen; and a difference told so that it can be made again.

use crate::call::{by_engine, by_oracle, Call, Name, Outcome};
use crate::record::Record;
use oracle::{text, value};
use std::collections::BTreeMap;
use std::fmt;

/// A call whose two sides differ.
#[derive(Clone, Debug)]
pub struct Difference {
    pub seed: u64,
    /// Which call of the case it was, from 1.
    pub turn: u64,
    pub how: String,
    pub call: String,
}

impl fmt::Display for Difference {
    fn fmt(&self, f: &mut fmt::Formatter<'_>) -> fmt::Result {
        writeln!(f, "case {}, its call {}: {}", self.seed, self.turn, self.how)?;
        write!(f, "{}", self.call)
    }
}

/// The calls compared so far.
#[derive(Debug, Default)]
pub struct Comparison {
    pub calls: u64,
    pub cases: u64,
    seed: u64,
    turn: u64,
    /// How often each call gave each answer.
    seen: BTreeMap<(String, i32), u64>,
    /// Where each call is written with what the engine gave, if it is.
    pub record: Option<Record>,
}

impl Comparison {
    pub fn recorded(record: Option<Record>) -> Comparison {
        Comparison { record, ..Comparison::default() }
    }

    pub fn begin(&mut self, seed: u64) {
        self.seed = seed;
        self.turn = 0;
        self.cases += 1;
    }

    /// Makes a call on both sides; where all that they give is alike, gives it.
    pub fn make(&mut self, call: &Call) -> Result<Outcome, Box<Difference>> {
        self.calls += 1;
        self.turn += 1;
        let (by, text) = (call.by.to_vec(), call.text.to_vec());
        let lent = Call { by: &by, text: &text, ..call.clone() };
        let engine = by_engine(&lent);
        if by != call.by || text != call.text {
            return Err(self.apart(call, "the engine changed what it was lent to read".to_string()));
        }
        let oracle = by_oracle(call);
        if let Some(how) = engine.difference(&oracle) {
            return Err(self.apart(call, how));
        }
        if let Some(record) = &mut self.record {
            record.write(call, &engine);
        }
        *self.seen.entry((format!("{:?}", call.name), engine.answer)).or_insert(0) += 1;
        Ok(engine)
    }

    /// A difference at this call.
    pub fn apart(&self, call: &Call, how: String) -> Box<Difference> {
        Box::new(Difference { seed: self.seed, turn: self.turn, how, call: told(call) })
    }

    /// How often each call was made, with how often it gave each answer.
    pub fn seen(&self) -> String {
        let mut lines: BTreeMap<&str, (u64, String)> = BTreeMap::new();
        for ((name, answer), times) in &self.seen {
            let line = lines.entry(name).or_default();
            line.0 += times;
            line.1 += &format!(" {answer}:{times}");
        }
        lines.iter().map(|(name, (times, answers))| format!("{name:<12} {times:>8}  answers{answers}\n")).collect()
    }

    /// Whether some call gave this answer.
    pub fn gave(&self, answer: i32) -> bool {
        self.seen.keys().any(|(_, a)| *a == answer)
    }
}

/// Numbers in a line, the zeros at the end left out.
fn listed(ns: &[i32]) -> String {
    let used = ns.iter().rposition(|n| *n != 0).map_or(0, |i| i + 1);
    let line: Vec<String> = ns[..used].iter().map(|n| n.to_string()).collect();
    format!("{} ({} numbers, then 0)", line.join(" "), ns.len())
}

/// A call as text: all that it is lent.
fn told(call: &Call) -> String {
    let mut out = format!("call {:?}, room lent {}\n", call.name, call.room);
    if matches!(call.name, Name::Post | Name::PlanPost) {
        out += &format!("event {}, argument {}\n", call.event, call.arg);
    }
    if call.name == Name::PlanReplay {
        out += &format!("events {:?}\n", call.events);
    }
    if call.name == Name::Read {
        out += &format!("text of {} bytes:\n{}\n", call.text.len(), String::from_utf8_lossy(call.text));
    }
    if !call.by.is_empty() {
        match value::chart(call.by) {
            Some(c) => out += &format!("chart:\n{}", String::from_utf8_lossy(&text::write(&c))),
            None => out += &format!("chart or plan: {}\n", listed(call.by)),
        }
    }
    if !call.widget.is_empty() {
        out += &format!("widget: {}\n", listed(call.widget));
    }
    out
}
