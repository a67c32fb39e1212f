//! An independent interpreter of the engine's rules (`docs/SCOPE.md`), for comparison with the proved engine.
//!
//! It was written from the rules alone and shares nothing with the engine: plain Rust with vectors, one module a chapter. It reads and
//! writes chart texts, checks the rules, starts, runs, posts and discards on the chart by walking its tree, compiles a chart to its plan,
//! examines plans and runs them; `host` has the same calls on lent numbers. An answer other than 0 is an `Err` with the answer's number and its place.

pub mod chart;
pub mod fault;
pub mod host;
pub mod machine;
pub mod plan;
pub mod reaction;
pub mod rules;
pub mod text;
pub mod value;
pub mod widget;

/// An answer other than 0, and the place given with it.
#[derive(Clone, Copy, Debug, PartialEq, Eq)]
pub struct Refused {
    pub number: u32,
    pub place: u32,
}

/// A refusal with a place.
pub fn refused<T>(number: u32, place: u32) -> Result<T, Refused> {
    Err(Refused { number, place })
}

/// The largest size of a constant, an argument or a range end.
pub const MOST: i64 = 1_000_000_000;

/// Whether a number lies within the range of constants.
pub fn in_range(n: i64) -> bool {
    (-MOST..=MOST).contains(&n)
}
