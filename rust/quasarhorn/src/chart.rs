use crate::answer::{outcome, Refused};
use crate::numbers;

/// A chart that keeps the rules, as its 2,421 numbers.
///
/// ```
/// use quasarhorn::{Answer, Chart};
///
/// let text = b"S\t0\t-\to\t1\nS\t1\t0\tb\t-\nS\t2\t0\tb\t-\nE\t1\nT\t0\t1\t1\t-\t-\t-\t2\n";
/// let chart = Chart::read(text)?;
/// assert_eq!((chart.states(), chart.events()), (3, 1));
/// assert_eq!(chart.write(), text);
///
/// let refused = Chart::read(b"S\t0\t-\to\t1\nS\t1\t7\tb\t-\nE\t1\n").unwrap_err();
/// assert_eq!((refused.answer, refused.place), (Answer::RuleFails, 2));
/// assert_eq!(refused.to_string(), "the chart fails a rule: R2");
/// # Ok::<(), quasarhorn::Refused>(())
/// ```
#[derive(Clone, Debug, PartialEq, Eq)]
pub struct Chart {
    numbers: Vec<i32>,
}

impl Chart {
    /// Reads a chart text.
    pub fn read(text: &[u8]) -> Result<Chart, Refused> {
        let mut chart = vec![0; numbers::CHART];
        outcome(numbers::read(text, &mut chart))?;
        Ok(Chart { numbers: chart })
    }

    /// The chart that numbers state, where they keep the rules (R0 first).
    pub fn from_numbers(chart: &[i32]) -> Result<Chart, Refused> {
        outcome(numbers::check(chart))?;
        Ok(Chart { numbers: chart[..numbers::CHART].to_vec() })
    }

    /// Its numbers, as [`crate::numbers`] takes them.
    pub fn numbers(&self) -> &[i32] {
        &self.numbers
    }

    /// Its text.
    pub fn write(&self) -> Vec<u8> {
        let mut text = vec![0; numbers::TEXT];
        let length = outcome(numbers::write(&self.numbers, &mut text)).expect("a chart that keeps the rules has a text of this size");
        text.truncate(length);
        text
    }

    /// Its plan.
    pub fn compile(&self) -> Plan {
        let mut plan = vec![0; numbers::PLAN];
        let length = outcome(numbers::compile(&self.numbers, &mut plan)).expect("a chart that keeps the rules has a plan of this size");
        plan.truncate(length);
        plan.shrink_to_fit();
        Plan { numbers: plan }
    }

    fn count(&self, i: usize) -> usize {
        self.numbers[i] as usize
    }

    /// How many states it has; they are numbered from 0, the root.
    pub fn states(&self) -> usize {
        self.count(0)
    }

    /// How many variables it has, numbered from 0.
    pub fn variables(&self) -> usize {
        self.count(1)
    }

    /// How many events it has, numbered from 1.
    pub fn events(&self) -> usize {
        self.count(2)
    }

    /// How many transitions it has, numbered from 0.
    pub fn transitions(&self) -> usize {
        self.count(3)
    }
}

/// A well-formed plan: what a chart is compiled to, ready to be run.
///
/// ```
/// use quasarhorn::{Answer, Chart, Plan};
///
/// let chart = Chart::read(b"S\t0\t-\to\t1\nS\t1\t0\tb\t-\nE\t0\n")?;
/// let plan = chart.compile();
/// // a plan can be kept as its numbers, and is examined when it comes back
/// let kept: Vec<i32> = plan.numbers().to_vec();
/// assert_eq!(Plan::from_numbers(&kept)?, plan);
/// assert_eq!(Plan::from_numbers(&kept[1..]).unwrap_err().answer, Answer::NotAPlan);
/// # Ok::<(), quasarhorn::Refused>(())
/// ```
#[derive(Clone, Debug, PartialEq, Eq)]
pub struct Plan {
    numbers: Vec<i32>,
}

impl Plan {
    /// The plan that numbers state, where it is well formed; numbers past its end are ignored.
    pub fn from_numbers(plan: &[i32]) -> Result<Plan, Refused> {
        outcome(numbers::examine(plan))?;
        let count = |i: usize| plan[i] as usize;
        let length = 6 + 3 * count(1) + 10 * count(3) + 4 * count(4);
        Ok(Plan { numbers: plan[..length].to_vec() })
    }

    /// Its numbers (docs/PLAN.md has their layout).
    pub fn numbers(&self) -> &[i32] {
        &self.numbers
    }
}
