use std::error::Error;
use std::fmt;

/// What a call answers, with its number (`docs/USING.md` says what to do about each).
#[derive(Clone, Copy, Debug, PartialEq, Eq, Hash)]
#[non_exhaustive]
pub enum Answer {
    /// 0: done.
    Done = 0,
    /// 1: a line of the text has a wrong form, place or number, or the E line is missing.
    WrongLine = 1,
    /// 2: a count or a number of the text is outside its size.
    OutsideSize = 2,
    /// 3: the chart fails a rule.
    RuleFails = 3,
    /// 4: the plan is longer than the numbers lent.
    PlanTooLong = 4,
    /// 5: the numbers are no well-formed plan.
    NotAPlan = 5,
    /// 6: the widget's numbers belong to no widget of this chart or plan.
    Foreign = 6,
    /// 7: the widget is not started.
    NotStarted = 7,
    /// 8: no event waits.
    QueueEmpty = 8,
    /// 9: sixteen events wait already.
    QueueFull = 9,
    /// 10: the chart has no such event, or its argument is out of range.
    NoSuchEvent = 10,
    /// 11: no room for the next entry of the trace.
    NoRoom = 11,
    /// 12: after 32 null steps another one would follow.
    Unsettled = 12,
    /// 13: the text is longer than the bytes lent.
    TextTooLong = 13,
    /// 14: a restore meets an empty slot below its owner.
    SlotEmpty = 14,
}

const ANSWERS: [Answer; 15] = [
    Answer::Done,
    Answer::WrongLine,
    Answer::OutsideSize,
    Answer::RuleFails,
    Answer::PlanTooLong,
    Answer::NotAPlan,
    Answer::Foreign,
    Answer::NotStarted,
    Answer::QueueEmpty,
    Answer::QueueFull,
    Answer::NoSuchEvent,
    Answer::NoRoom,
    Answer::Unsettled,
    Answer::TextTooLong,
    Answer::SlotEmpty,
];

impl Answer {
    /// The answer of a number.
    ///
    /// ```
    /// use quasarhorn::Answer;
    /// assert_eq!(Answer::of(9), Some(Answer::QueueFull));
    /// assert_eq!(Answer::of(15), None);
    /// ```
    pub fn of(number: i32) -> Option<Answer> {
        usize::try_from(number).ok().and_then(|n| ANSWERS.get(n).copied())
    }

    /// Its number.
    pub fn number(self) -> i32 {
        self as i32
    }

    /// What it says, in words.
    pub fn words(self) -> &'static str {
        match self {
            Answer::Done => "done",
            Answer::WrongLine => "a line has a wrong form, place or number, or the E line is missing",
            Answer::OutsideSize => "a count or number is outside its size",
            Answer::RuleFails => "the chart fails a rule",
            Answer::PlanTooLong => "the plan is longer than the numbers lent",
            Answer::NotAPlan => "the numbers are no well-formed plan",
            Answer::Foreign => "the widget's numbers are foreign to this chart or plan",
            Answer::NotStarted => "the widget is not started",
            Answer::QueueEmpty => "no event waits",
            Answer::QueueFull => "the queue is full",
            Answer::NoSuchEvent => "there is no such event, or its argument is out of range",
            Answer::NoRoom => "no room for the next trace entry",
            Answer::Unsettled => "a 33rd null step is needed",
            Answer::TextTooLong => "the text is longer than the bytes lent",
            Answer::SlotEmpty => "a restore meets an empty slot below its owner",
        }
    }
}

impl fmt::Display for Answer {
    fn fmt(&self, f: &mut fmt::Formatter<'_>) -> fmt::Result {
        f.write_str(self.words())
    }
}

/// A call that was refused: nothing has changed.
#[derive(Clone, Copy, Debug, PartialEq, Eq, Hash)]
pub struct Refused {
    /// Why.
    pub answer: Answer,
    /// Where: the line of the text for [`Answer::WrongLine`] and [`Answer::OutsideSize`], the rule's number for [`Answer::RuleFails`], else 0.
    pub place: u32,
}

impl fmt::Display for Refused {
    fn fmt(&self, f: &mut fmt::Formatter<'_>) -> fmt::Result {
        match self.answer {
            Answer::WrongLine | Answer::OutsideSize => write!(f, "line {}: {}", self.place, self.answer),
            Answer::RuleFails => write!(f, "{}: R{}", self.answer, self.place),
            _ => write!(f, "{}", self.answer),
        }
    }
}

impl Error for Refused {}

/// The count of a call that is done, or its refusal.
pub(crate) fn outcome(report: crate::numbers::Report) -> Result<usize, Refused> {
    match Answer::of(report.answer) {
        Some(Answer::Done) => Ok(report.count as usize),
        Some(answer) => Err(Refused { answer, place: report.place as u32 }),
        None => unreachable!("the engine's answers are 0 to 14"),
    }
}
