//! The C header and this crate say the same sizes, places and answers.

use quasarhorn::{numbers, Answer, Widget};
use std::collections::{BTreeSet, HashMap};
use std::path::Path;

fn text() -> String {
    let path = Path::new(env!("CARGO_MANIFEST_DIR")).join("../../include/quasarhorn.h");
    std::fs::read_to_string(path).unwrap()
}

/// What the header gives a name: `#define NAME NUMBER` and `NAME = NUMBER`.
fn header() -> HashMap<String, i64> {
    let text = text();
    let mut found = HashMap::new();
    for line in text.lines() {
        let words: Vec<&str> = line.split_whitespace().collect();
        let pair = match words[..] {
            ["#define", name, number, ..] => (name, number),
            [name, "=", number, ..] => (name, number),
            _ => continue,
        };
        if let Ok(number) = pair.1.trim_end_matches(',').parse() {
            found.insert(pair.0.to_string(), number);
        }
    }
    found
}

/// The names that begin with qh_ and end as said, in some bytes.
fn names(bytes: &[u8], end: u8) -> BTreeSet<String> {
    let is_part = |b: &u8| b.is_ascii_lowercase() || *b == b'_';
    let mut found = BTreeSet::new();
    for i in 0..bytes.len() {
        let rest = &bytes[i..];
        let length = rest.iter().take_while(|b| is_part(b)).count();
        if rest.starts_with(b"qh_") && (i == 0 || !is_part(&bytes[i - 1])) && rest.get(length) == Some(&end) {
            found.insert(String::from_utf8_lossy(&rest[..length]).into_owned());
        }
    }
    found
}

#[test]
fn every_call_of_the_archive_is_declared() {
    let mut linked = names(&std::fs::read(env!("QUASARHORN_LINKED")).unwrap(), 0);
    if !numbers::HAS_REPLAY {
        linked.insert("qh_plan_replay".to_string());
    }
    assert_eq!(names(text().as_bytes(), b'('), linked);
    assert_eq!(linked.len(), 15);
}

#[test]
fn sizes() {
    let header = header();
    assert_eq!(header["QH_WIDGET_NUMBERS"], numbers::WIDGET as i64);
    assert_eq!(header["QH_CHART_NUMBERS"], numbers::CHART as i64);
    assert_eq!(header["QH_PLAN_NUMBERS"], numbers::PLAN as i64);
    assert_eq!(header["QH_TEXT_BYTES"], numbers::TEXT as i64);
    assert_eq!(header["QH_ENTRY_NUMBERS"], numbers::ENTRY as i64);
    let count = |name: &str| header[name];
    assert_eq!(1 + 2 * count("QH_STATES") + count("QH_VARIABLES") + 1 + 2 * count("QH_QUEUE"), numbers::WIDGET as i64);
}

#[test]
fn answers() {
    let header = header();
    let names = [
        "DONE",
        "WRONG_LINE",
        "OUTSIDE_SIZE",
        "RULE_FAILS",
        "PLAN_TOO_LONG",
        "NOT_A_PLAN",
        "FOREIGN",
        "NOT_STARTED",
        "QUEUE_EMPTY",
        "QUEUE_FULL",
        "NO_SUCH_EVENT",
        "NO_ROOM",
        "UNSETTLED",
        "TEXT_TOO_LONG",
        "SLOT_EMPTY",
    ];
    for (number, name) in names.iter().enumerate() {
        assert_eq!(header[&format!("QH_{name}")], number as i64);
        let answer = Answer::of(number as i32).unwrap();
        // QUEUE_FULL is QueueFull here
        assert_eq!(format!("{answer:?}").to_uppercase(), name.replace('_', ""));
        assert_eq!(answer.number(), number as i32);
    }
    assert_eq!(Answer::of(names.len() as i32), None);
    assert_eq!(Answer::of(-1), None);
}

#[test]
fn a_widget_of_any_numbers_can_be_looked_at() {
    let widget = Widget::from_numbers([i32::MAX; numbers::WIDGET]);
    assert!(!widget.is_started());
    assert!(!widget.is_active(63) && !widget.is_active(64));
    assert_eq!(widget.slot(64), None);
    assert_eq!(widget.waiting().len(), 16);
    assert_eq!(Widget::from_numbers([-1; numbers::WIDGET]).waiting(), []);
}
