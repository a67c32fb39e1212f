//! compare [--calls N] [--seed N] [--fault NAME]: compares so many calls (20,000), with a fault planted in the interpreter where one is named.
//! compare --record [--calls N] [--seed N]: the same, with each call and what the engine gave on standard output (module record).
//! compare --case SEED [--fault NAME]: one case again, with the call that differs as text.

use compare::comparison::Comparison;
use compare::record::Record;
use compare::{cases, compare_with};
use oracle::fault;
use quasarhorn::numbers::HAS_REPLAY;
use std::process::exit;

const USAGE: &str = "compare [--calls N] [--seed N] [--fault NAME] [--record] | compare --case SEED [--fault NAME]";

fn number(word: Option<String>) -> u64 {
    word.and_then(|w| w.parse().ok()).unwrap_or_else(|| usage())
}

fn usage() -> ! {
    let names: Vec<&str> = fault::FAULTS.iter().map(|(_, name)| *name).collect();
    eprintln!("{USAGE}\nfaults: {}", names.join(", "));
    exit(2)
}

fn main() {
    let (mut calls, mut seed, mut case, mut record) = (20_000, 1, None, None);
    let mut words = std::env::args().skip(1);
    while let Some(word) = words.next() {
        match word.as_str() {
            "--calls" => calls = number(words.next()),
            "--seed" => seed = number(words.next()),
            "--case" => case = Some(number(words.next())),
            "--record" => record = Some(Record::default()),
            "--fault" => {
                let named = words.next().and_then(|name| fault::named(&name));
                fault::plant(Some(named.unwrap_or_else(|| usage())));
            }
            _ => usage(),
        }
    }
    let (mut cmp, apart) = match case {
        Some(seed) => {
            let mut cmp = Comparison::default();
            let apart = cases::case(&mut cmp, seed).err();
            (cmp, apart)
        }
        None => compare_with(Comparison::recorded(record), seed, calls),
    };
    if let Some(mut record) = cmp.record.take() {
        exit(if record.end().is_ok() && apart.is_none() { 0 } else { 1 });
    }
    print!("{}", cmp.seen());
    if !HAS_REPLAY {
        println!("This archive has no qh_plan_replay: replays were made by single calls.");
    }
    if let Some(apart) = apart {
        print!("{apart}");
        println!("compare: a difference after {} calls; again with: tests/compare --case {}", cmp.calls, apart.seed);
        exit(1);
    }
    println!("compare: {} calls in {} cases, seed {seed}: engine and interpreter alike", cmp.calls, cmp.cases);
}
