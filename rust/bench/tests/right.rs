//! The benchmark's interpreters do what the plain one does, on random charts: otherwise their times would say nothing.

use bench::examine::well_formed;
use bench::interpreter::Interpreter;
use bench::{fast, walker};
use compare::charts;
use compare::damage;
use compare::dice::Dice;
use oracle::{host, value};

/// A widget with one thing changed, so that the test for 6 must see it.
fn damaged_fast(dice: &mut Dice, mut w: fast::Widget) -> fast::Widget {
    let (s, n) = (dice.below(64), dice.number(-1, 63));
    match dice.below(5) {
        0 => w.active ^= 1 << s,
        1 => w.slots[s] = n as i8,
        2 => w.vars[s % 16] += n as i32,
        3 => w.places[s % 16].0 += n as i32,
        _ => w.length = dice.below(18),
    }
    w
}

fn damaged_walker(dice: &mut Dice, mut w: walker::Widget) -> walker::Widget {
    let (s, n) = (dice.below(64), dice.number(-1, 63));
    match dice.below(5) {
        0 => w.active[s] = !w.active[s],
        1 => w.slots[s] = u8::try_from(n).ok(),
        2 => w.vars[s % 16] += n as i32,
        3 => w.places[s % 16].0 += n as i32,
        _ => w.length = dice.below(18),
    }
    w
}

/// An interpreter beside the plain one, on random charts and calls.
fn as_the_plain_interpreter<I: Interpreter>(damaged: fn(&mut Dice, I::Widget) -> I::Widget) {
    let mut answers = [0; 15];
    for seed in 0..600 {
        let mut dice = Dice::new(seed);
        let chart = charts::any(&mut dice);
        let (numbers, ready) = (value::numbers(&chart), I::new(&chart));
        let (mut plain, mut widget) = (vec![0; host::WIDGET], I::unstarted());
        host::unstarted(&mut plain);
        for turn in 0..60 {
            let room = if dice.chance(85) { 900 } else { dice.below(60) };
            let (mut wanted, mut trace) = (vec![7; room], vec![7; room]);
            let (event, arg) = (dice.number(0, chart.events + 1) as i32, dice.number(-9, 70) as i32);
            let (report, given) = match dice.below(10) {
                _ if turn == 0 => (host::start(&numbers, &mut plain, &mut wanted), ready.start::<true>(&mut widget, &mut trace)),
                0..=4 => (host::run(&numbers, &mut plain, &mut wanted), ready.run::<true, true>(&mut widget, &mut trace)),
                _ => (host::post(&numbers, &mut plain, event, arg), (ready.post::<true>(&mut widget, event, arg), 0)),
            };
            assert_eq!((report.answer, report.count as usize), given, "seed {seed}, call {turn}");
            assert_eq!((&plain, &wanted), (&I::numbers(&widget), &trace), "seed {seed}, call {turn}");
            answers[given.0 as usize] += 1;
            let mut after = damaged(&mut dice, widget);
            let mut plain = I::numbers(&after);
            let report = host::post(&numbers, &mut plain, 1, 0);
            let given = ready.post::<true>(&mut after, 1, 0);
            assert_eq!((report.answer, plain), (given, I::numbers(&after)), "seed {seed}, damaged after {turn}");
            answers[report.answer as usize] += 1;
        }
    }
    for answer in [0, 6, 7, 8, 9, 10, 11, 12] {
        assert!(answers[answer] > 0, "no call gave {answer}");
    }
}

#[test]
fn the_walker_is_right() {
    as_the_plain_interpreter::<walker::Chart>(damaged_walker);
}

#[test]
fn the_fast_one_is_right() {
    as_the_plain_interpreter::<fast::Chart>(damaged_fast);
}

#[test]
fn plans_examined_as_by_the_plain_interpreter() {
    let mut dice = Dice::new(1);
    let mut well = 0;
    for _ in 0..300 {
        let plan = damage::plan(&mut dice);
        for _ in 0..60 {
            let mut damaged = plan.clone();
            damage::numbers(&mut dice, &mut damaged);
            if dice.chance(10) {
                damaged.truncate(dice.below(plan.len() + 1));
            }
            let fits = host::examine(&damaged).answer == 0;
            assert_eq!(well_formed(&damaged), fits, "{damaged:?}");
            well += fits as u32;
        }
    }
    assert!(well > 100);
}
