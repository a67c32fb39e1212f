//! Quasarhorn for Rust: a statechart engine that is proved to do what its rules say, on every input.
//!
//! A [`Chart`] is read from its text, compiled to a [`Plan`], and a [`Widget`] runs by either; a [`Trace`] says what each call did. Every
//! call that cannot be done is [`Refused`] with an [`Answer`], and then nothing has changed.
//!
//! ```
//! use quasarhorn::{Chart, Trace, Widget};
//!
//! let chart = Chart::read(b"S\t0\t-\to\t1\nS\t1\t0\tb\t-\nS\t2\t0\tb\t-\nE\t2\nT\t0\t1\t1\t-\t-\t-\t2\nT\t1\t2\t2\t-\t-\t-\t1\n")?;
//! let plan = chart.compile();
//! let mut trace = Trace::with_room(1000);
//! let mut widget = Widget::unstarted();
//! widget.start(&plan, &mut trace)?;
//! for (event, state) in [(1, 2), (2, 1), (1, 2)] {
//!     widget.post(&plan, event, 0)?;
//!     widget.run(&plan, &mut trace)?;
//!     assert!(widget.is_active(state));
//! }
//! # Ok::<(), quasarhorn::Refused>(())
//! ```
//!
//! The engine itself is an archive for x86-64, `libboundary.a`, made by `tests/archive`; the environment variable
//! `QUASARHORN_ARCHIVE` names its folder where it is not `target/staticlib` of this repository. [`numbers`] has its calls as they are,
//! for a host that keeps its own numbers.

#![warn(missing_docs)]

mod answer;
mod chart;
pub mod numbers;
mod trace;
mod widget;

pub use answer::{Answer, Refused};
pub use chart::{Chart, Plan};
pub use trace::{Entry, Trace};
pub use widget::{Behaviour, Widget};
