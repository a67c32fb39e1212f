//! Calls and all that the engine gave, written out for another host to make again: `web/tests/random.mjs` makes them in WebAssembly.
//! A stream of 32-bit numbers, lowest byte first; a list is its length and its numbers; bytes are a list of numbers too.
//! One call: name, chart or plan, text, widget, room, event, argument, events; answer, place, count, events done, widget, numbers, bytes.
//! A chart or plan that is the last one written again is the length -1 alone.

use crate::call::{Call, Outcome};
use std::io::{self, BufWriter, Stdout, Write};

#[derive(Debug)]
pub struct Record {
    to: BufWriter<Stdout>,
    by: Vec<i32>,
}

impl Default for Record {
    fn default() -> Record {
        Record { to: BufWriter::with_capacity(1 << 16, io::stdout()), by: Vec::new() }
    }
}

impl Record {
    /// Writes a call and what it gave. Whoever reads may stop reading: then the program ends.
    pub fn write(&mut self, call: &Call, gave: &Outcome) {
        if self.put(call, gave).is_err() {
            std::process::exit(1);
        }
    }

    pub fn end(&mut self) -> io::Result<()> {
        self.to.flush()
    }

    fn put(&mut self, call: &Call, gave: &Outcome) -> io::Result<()> {
        self.number(call.name as i32)?;
        if call.by == self.by.as_slice() {
            self.number(-1)?;
        } else {
            self.by = call.by.to_vec();
            self.list(call.by)?;
        }
        self.bytes(call.text)?;
        self.list(call.widget)?;
        for n in [call.room as i32, call.event, call.arg] {
            self.number(n)?;
        }
        self.list(call.events)?;
        for n in [gave.answer, gave.place, gave.count, gave.done] {
            self.number(n)?;
        }
        self.list(&gave.widget)?;
        self.list(&gave.numbers)?;
        self.bytes(&gave.bytes)
    }

    fn number(&mut self, n: i32) -> io::Result<()> {
        self.to.write_all(&n.to_le_bytes())
    }

    fn list(&mut self, ns: &[i32]) -> io::Result<()> {
        self.number(ns.len() as i32)?;
        ns.iter().try_for_each(|&n| self.number(n))
    }

    fn bytes(&mut self, bytes: &[u8]) -> io::Result<()> {
        self.number(bytes.len() as i32)?;
        bytes.iter().try_for_each(|&b| self.number(b.into()))
    }
}
