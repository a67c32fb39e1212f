use crate::numbers::ENTRY;

/// One entry of a trace.
#[derive(Clone, Copy, Debug, PartialEq, Eq)]
pub enum Entry {
    /// A transition was taken.
    Taken(usize),
    /// A state was left.
    Left(usize),
    /// A state was entered.
    Entered(usize),
    /// A variable holds a new value.
    Holds(usize, i32),
    /// An event was sent with an argument.
    Sent(i32, i32),
    /// The host is told a number.
    Told(i32),
}

/// What a start or a run did, in order; owned by the caller, and used again from call to call.
#[derive(Clone, Debug)]
pub struct Trace {
    pub(crate) numbers: Vec<i32>,
    pub(crate) entries: usize,
}

impl Trace {
    /// An empty trace with room for so many entries. A call that needs more is refused with [`crate::Answer::NoRoom`].
    pub fn with_room(entries: usize) -> Trace {
        Trace { numbers: vec![0; ENTRY * entries], entries: 0 }
    }

    /// How many entries the last call wrote.
    pub fn len(&self) -> usize {
        self.entries
    }

    /// Whether the last call wrote none.
    pub fn is_empty(&self) -> bool {
        self.entries == 0
    }

    /// The entries of the last call.
    pub fn entries(&self) -> impl Iterator<Item = Entry> + '_ {
        self.numbers.chunks(ENTRY).take(self.entries).map(|e| match e[0] {
            1 => Entry::Taken(e[1] as usize),
            2 => Entry::Left(e[1] as usize),
            3 => Entry::Entered(e[1] as usize),
            4 => Entry::Holds(e[1] as usize, e[2]),
            5 => Entry::Sent(e[1], e[2]),
            _ => Entry::Told(e[1]),
        })
    }
}
