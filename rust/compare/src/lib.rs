//! The proved engine, through its archive, against the independent interpreter: random charts, texts, plans and widgets, whole and damaged;
//! each call is made on both sides, and its answer, its place, its count and every lent number are compared, refused calls too.

pub mod call;
pub mod cases;
pub mod charts;
pub mod comparison;
pub mod damage;
pub mod dice;
pub mod record;

use comparison::{Comparison, Difference};
use dice::Dice;

/// Makes cases until so many calls were compared.
pub fn compare(seed: u64, calls: u64) -> (Comparison, Option<Box<Difference>>) {
    compare_with(Comparison::default(), seed, calls)
}

/// The same, going on from a comparison that was made ready.
pub fn compare_with(mut cmp: Comparison, seed: u64, calls: u64) -> (Comparison, Option<Box<Difference>>) {
    let mut seeds = Dice::new(seed);
    while cmp.calls < calls {
        if let Err(apart) = cases::case(&mut cmp, seeds.throw()) {
            return (cmp, Some(apart));
        }
    }
    (cmp, None)
}
