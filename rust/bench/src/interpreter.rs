//! What the benchmark and the tests ask of an interpreter.

use crate::{fast, walker};

/// A chart made ready, and the calls on a widget over it: each gives the answer, start and run also how many entries there are.
pub trait Interpreter {
    type Widget: Copy;
    fn new(chart: &oracle::chart::Chart) -> Self;
    fn unstarted() -> Self::Widget;
    /// The widget's numbers, as the engine has them.
    fn numbers(widget: &Self::Widget) -> Vec<i32>;
    fn start<const CLEARS: bool>(&self, widget: &mut Self::Widget, trace: &mut [i32]) -> (i32, usize);
    fn run<const TESTS: bool, const CLEARS: bool>(&self, widget: &mut Self::Widget, trace: &mut [i32]) -> (i32, usize);
    fn post<const TESTS: bool>(&self, widget: &mut Self::Widget, event: i32, arg: i32) -> i32;
}

macro_rules! interpreter {
    ($of:ident) => {
        impl Interpreter for $of::Chart {
            type Widget = $of::Widget;

            fn new(chart: &oracle::chart::Chart) -> Self {
                $of::Chart::new(chart)
            }

            fn unstarted() -> $of::Widget {
                $of::Widget::unstarted()
            }

            fn numbers(widget: &$of::Widget) -> Vec<i32> {
                widget.numbers()
            }

            #[inline(always)]
            fn start<const CLEARS: bool>(&self, widget: &mut $of::Widget, trace: &mut [i32]) -> (i32, usize) {
                $of::Chart::start::<CLEARS>(self, widget, trace)
            }

            #[inline(always)]
            fn run<const TESTS: bool, const CLEARS: bool>(&self, widget: &mut $of::Widget, trace: &mut [i32]) -> (i32, usize) {
                $of::Chart::run::<TESTS, CLEARS>(self, widget, trace)
            }

            #[inline(always)]
            fn post<const TESTS: bool>(&self, widget: &mut $of::Widget, event: i32, arg: i32) -> i32 {
                $of::Chart::post::<TESTS>(self, widget, event, arg)
            }
        }
    };
}

interpreter!(fast);
interpreter!(walker);
