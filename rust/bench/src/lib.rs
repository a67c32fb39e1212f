//! Two interpreters of charts for the engine's times to be held against, `walker`, which walks the tree, and `fast`, which is written for
//! speed alone; and `examine`, the test of a plan. `interpreter` is what both can do.

pub mod examine;
pub mod fast;
pub mod interpreter;
pub mod tables;
pub mod walker;
