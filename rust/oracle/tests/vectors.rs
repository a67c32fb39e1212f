//! The interpreter against the repository's vectors: chart texts, runs of the trace program (by the chart and by its plan), plans and damaged
//! plans, lists of calls and saved states. For each program of vectors all that it must print is made here anew and compared.

use oracle::chart::Chart;
use oracle::plan::Plan;
use oracle::widget::{Done, Widget, QUEUE, STATES, VARIABLES};
use oracle::{machine, plan, reaction, text, Refused, MOST};
use std::fs;
use std::path::{Path, PathBuf};

fn root() -> PathBuf {
    Path::new(env!("CARGO_MANIFEST_DIR")).join("../..")
}

fn folders(dir: &Path) -> Vec<PathBuf> {
    let mut found: Vec<PathBuf> = fs::read_dir(dir).unwrap().map(|e| e.unwrap().path()).filter(|p| p.is_dir()).collect();
    found.sort();
    found
}

fn words(path: &Path) -> String {
    fs::read_to_string(path).unwrap_or_else(|e| panic!("{}: {e}", path.display()))
}

/// The four calls, by the chart or by its plan.
enum Runner<'a> {
    Chart(&'a Chart),
    Plan(&'a Plan),
}

impl Runner<'_> {
    fn start(&self, lent: usize) -> Result<Done, Refused> {
        match self {
            Runner::Chart(c) => reaction::start(c, lent),
            Runner::Plan(p) => machine::start(p, lent),
        }
    }

    fn run(&self, w: &Widget, lent: usize) -> Result<Done, Refused> {
        match self {
            Runner::Chart(c) => reaction::run(c, w, lent),
            Runner::Plan(p) => machine::run(p, w, lent),
        }
    }

    fn post(&self, w: &Widget, event: i64, arg: i64) -> Result<Widget, Refused> {
        match self {
            Runner::Chart(c) => reaction::post(c, w, event, arg),
            Runner::Plan(p) => machine::post(p, w, event, arg),
        }
    }

    fn discard(&self, w: &Widget) -> Result<Widget, Refused> {
        match self {
            Runner::Chart(c) => reaction::discard(c, w),
            Runner::Plan(p) => machine::discard(p, w),
        }
    }
}

/// The plan, from its numbers with some zeros after it.
fn compiled(c: &Chart) -> Plan {
    let mut ns = plan::numbers(&plan::plan(c));
    ns.extend([0; 7]);
    machine::examined(&ns).unwrap()
}

// ---- chart texts

#[test]
fn texts() {
    let dir = root().join("crates/text_vectors");
    let mut seen = 0;
    for line in words(&dir.join("stdout")).lines() {
        let f: Vec<&str> = line.split('\t').collect();
        let bytes = fs::read(dir.join("data").join(format!("{}.txt", f[0]))).unwrap();
        let (number, place, back) = match text::read(&bytes) {
            Ok(c) => (0, 0, if text::write(&c) == bytes { "same" } else { "differs" }),
            Err(r) => (r.number, r.place, "-"),
        };
        assert_eq!(format!("{number}\t{place}\t{back}"), f[1..].join("\t"), "{}", f[0]);
        seen += 1;
    }
    assert!(seen > 100);
}

// ---- the trace program

const ROOM: usize = 3000;

fn report(out: &mut String, number: u32, trace: &[i64]) {
    *out += &format!("R {number} {}\n", trace.len() / 3);
    for e in trace.chunks(3) {
        *out += &format!("{} {} {}\n", e[0], e[1], e[2]);
    }
}

fn number(field: &str) -> Option<i64> {
    let digits = field.strip_prefix('-').unwrap_or(field);
    let plain = !digits.is_empty() && digits.bytes().all(|b| b.is_ascii_digit());
    if !plain || (digits.starts_with('0') && field != "0") {
        return None;
    }
    let size = digits.parse::<i64>().unwrap_or(i64::MAX).min(MOST + 1);
    Some(if size > MOST { MOST + 1 } else if field.starts_with('-') { -size } else { size })
}

fn trace_program(by: &Runner, input: &[u8]) -> String {
    let mut out = String::new();
    let mut w = Widget::unstarted();
    let told = |out: &mut String, w: &mut Widget, r: Result<Done, Refused>| match r {
        Ok(d) => {
            report(out, 0, &d.trace);
            *w = d.widget;
        }
        Err(r) => report(out, r.number, &[]),
    };
    told(&mut out, &mut w, by.start(ROOM));
    let input = String::from_utf8_lossy(input);
    for line in input.split_terminator('\n') {
        let f: Vec<&str> = line.split('\t').collect();
        let (event, arg) = match (number(f[0]), f.get(1).and_then(|a| number(a)), f.len()) {
            (Some(event), Some(arg), 2) => (event, arg),
            _ => {
                report(&mut out, 1, &[]);
                continue;
            }
        };
        match by.post(&w, event, arg) {
            Ok(after) => {
                w = after;
                let ran = by.run(&w, ROOM);
                told(&mut out, &mut w, ran);
            }
            Err(r) => report(&mut out, r.number, &[]),
        }
    }
    out
}

#[test]
fn runs() {
    let mut seen = 0;
    for dir in folders(&root().join("tests/runs")) {
        let chart = fs::read(dir.join("chart.txt")).unwrap_or_default();
        let input = fs::read(dir.join("stdin")).unwrap_or_default();
        let wanted = words(&dir.join("stdout"));
        match text::read(&chart) {
            Err(r) => assert_eq!(format!("R {} 0\n", r.number), wanted, "{}", dir.display()),
            Ok(c) => {
                assert_eq!(trace_program(&Runner::Chart(&c), &input), wanted, "{} by the chart", dir.display());
                assert_eq!(trace_program(&Runner::Plan(&compiled(&c)), &input), wanted, "{} by the plan", dir.display());
            }
        }
        seen += 1;
    }
    assert!(seen > 50);
}

// ---- plans

fn numbers(path: &Path) -> Vec<i64> {
    words(path).split_whitespace().map(|n| n.parse().unwrap()).collect()
}

#[test]
fn plans() {
    let dir = root().join("crates/plan_vectors");
    let mut out = String::new();
    for name in words(&dir.join("args")).lines() {
        let file = dir.join("data").join(name);
        if let Some(stem) = name.strip_suffix(".plan") {
            let answer = if plan::examine(&numbers(&file)).is_some() { 0 } else { 5 };
            out += &format!("{stem}\t{answer}\n");
        } else if name.ends_with(".txt") {
            let c = text::read(&fs::read(&file).unwrap()).unwrap();
            let ns = plan::numbers(&plan::plan(&c));
            assert_eq!(ns, numbers(&file.with_extension("num")), "{name}");
            out += &format!("{name}\t0\t{}\tsame\t4\n", ns.len());
        }
    }
    assert_eq!(out, words(&dir.join("stdout")));
}

// ---- lists of calls and saved states

fn call(by: &Runner, w: &Widget, line: &str) -> (u32, u32, Option<Done>) {
    let f: Vec<&str> = line.split_whitespace().collect();
    let n = |i: usize| f[i].parse::<i64>().unwrap();
    let quiet = |r: Result<Widget, Refused>| r.map(|widget| Done { widget, trace: Vec::new() });
    let r = match f[0] {
        "start" => by.start(n(1) as usize),
        "run" => by.run(w, n(1) as usize),
        "post" => quiet(by.post(w, n(1), n(2))),
        _ => quiet(by.discard(w)),
    };
    match r {
        Ok(d) => (0, 0, Some(d)),
        Err(r) => (r.number, r.place, None),
    }
}

fn shown(c: &Chart, w: &Widget) -> String {
    let join = |items: Vec<String>| items.into_iter().map(|s| format!(" {s}")).collect::<String>();
    let active = (0..STATES).filter(|&s| w.active[s]).map(|s| s.to_string()).collect();
    let slots = (0..STATES).filter(|&s| w.slots[s] != -1).map(|s| format!("{s}:{}", w.slots[s])).collect();
    let vars = (0..c.variables.len()).map(|v| w.vars[v].to_string()).collect();
    let queue = w.waiting().iter().map(|(e, a)| format!("{e}:{a}")).collect();
    format!("S {}\nM{}\nH{}\nV{}\nQ{}\n", w.started as u8, join(active), join(slots), join(vars), join(queue))
}

fn saved_widget(ns: &[i64]) -> Widget {
    let (marks, rest) = ns[1..].split_at(STATES);
    let (slots, rest) = rest.split_at(STATES);
    let (vars, rest) = rest.split_at(VARIABLES);
    assert_eq!(rest.len(), 1 + 2 * QUEUE);
    Widget {
        started: ns[0] != 0,
        active: marks.iter().map(|m| *m != 0).collect(),
        slots: slots.to_vec(),
        vars: vars.to_vec(),
        length: rest[0],
        places: rest[1..].chunks(2).map(|p| (p[0], p[1])).collect(),
    }
}

/// What one case must print over its chart or over its plan: for each call what it gave.
fn case(by: &Runner, c: &Chart, name: &str, file: impl Fn(&str) -> PathBuf) -> String {
    let saved = name.starts_with("saved");
    let mut w = if saved { saved_widget(&numbers(&file("state"))) } else { Widget::unstarted() };
    let mut out = String::new();
    for line in words(&file("calls")).lines() {
        let (number, place, done) = call(by, &w, line);
        let trace = done.as_ref().map_or(&[][..], |d| &d.trace);
        out += &format!("R {number} {place} {}\n", trace.len() / 3);
        if !saved {
            trace.chunks(3).for_each(|e| out += &format!("{} {} {}\n", e[0], e[1], e[2]));
            w = done.map_or(w, |d| d.widget);
            out += &shown(c, &w);
        }
    }
    out
}

#[test]
fn calls() {
    let dir = root().join("crates/call_vectors");
    let mut out = String::new();
    for name in words(&dir.join("args")).lines() {
        let file = |ending: &str| dir.join("data").join(format!("{name}_{ending}.txt"));
        let c = text::read(&fs::read(file("chart")).unwrap()).unwrap();
        let by_chart = case(&Runner::Chart(&c), &c, name, file);
        let by_plan = case(&Runner::Plan(&compiled(&c)), &c, name, file);
        out += &format!("{name}\n{by_chart}{name} by its plan\n{by_plan}");
    }
    assert_eq!(out, words(&dir.join("stdout")));
}
