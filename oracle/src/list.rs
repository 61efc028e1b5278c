//! A list: entries of 40 bytes, read from an input or recorded with the answers of the Rust.

use crate::answer::{Answer, ANSWER_LEN};
use crate::call::{Call, CALL_LEN};
use crate::gear::Gear;
use crate::image::{digest, image};
use crate::kinds::{self, NEW};
use crate::perform::{step, Malformed};
use crate::profile::first_gear;
use std::cell::Cell;
use std::io::{self, Read};

pub const ENTRY_LEN: usize = 40;
pub const TAIL_LEN: usize = ENTRY_LEN - CALL_LEN;

/// An entry as it was read: the call, and the answer and digest that the list brings along.
pub struct Entry {
    pub call: Call,
    pub tail: [u8; TAIL_LEN],
}

pub enum Fault {
    Io(io::Error),
    /// The byte offset of the trouble, and what it is.
    List(u64, String),
    /// The same in a stream of session files.
    Stream(u64, String),
    /// The offset at which a session file is malformed, where only a well formed one will do.
    Session(usize),
}

impl From<io::Error> for Fault {
    fn from(error: io::Error) -> Self {
        Fault::Io(error)
    }
}

/// Reads the entries of a list; `entries` are those read so far.
pub struct Reader<R: Read> {
    input: R,
    entries: u64,
}

impl<R: Read> Reader<R> {
    pub fn new(input: R) -> Self {
        Reader { input, entries: 0 }
    }

    pub fn next_entry(&mut self) -> Result<Option<Entry>, Fault> {
        let mut bytes = [0; ENTRY_LEN];
        match self.fill(&mut bytes)? {
            0 => return Ok(None),
            ENTRY_LEN => self.entries += 1,
            found => return Err(self.cut_short(found)),
        }
        let (call, tail) = bytes.split_at(CALL_LEN);
        let (call, tail) = (call.try_into().unwrap(), tail.try_into().unwrap());
        Ok(Some(Entry { call: Call(call), tail }))
    }

    /// Reads until the buffer is full or the input ends; the bytes that were there.
    fn fill(&mut self, buffer: &mut [u8]) -> io::Result<usize> {
        let mut found = 0;
        while found < buffer.len() {
            match self.input.read(&mut buffer[found..]) {
                Ok(0) => break,
                Ok(more) => found += more,
                Err(error) if error.kind() == io::ErrorKind::Interrupted => {}
                Err(error) => return Err(error),
            }
        }
        Ok(found)
    }

    fn cut_short(&self, found: usize) -> Fault {
        let end = self.entries * ENTRY_LEN as u64 + found as u64;
        let call = self.entries + 1;
        Fault::List(end, format!("the list ends inside call {call}, after {found} of its {ENTRY_LEN} bytes"))
    }

    /// The trouble of the call that was read last.
    pub fn malformed(&self, why: Malformed) -> Fault {
        let start = (self.entries - 1) * ENTRY_LEN as u64;
        Fault::List(start, format!("call {}: {why}", self.entries))
    }
}

thread_local! {
    /// The call at hand, for the message of a panic.
    static AT_HAND: Cell<(u64, Call)> = const { Cell::new((0, Call([0; CALL_LEN]))) };
}

/// Makes a panic name the call that it happened in.
pub fn name_calls_in_panics() {
    let report = std::panic::take_hook();
    std::panic::set_hook(Box::new(move |info| {
        let (number, call) = AT_HAND.get();
        eprintln!("oracle: panic in call {number}, kind {} ({})", call.kind(), kinds::name(call.kind()));
        eprintln!("oracle: its bytes are {:?}", call.0);
        report(info);
    }));
}

/// The current record of a list and the number of the call that it stands behind.
pub struct Run {
    pub gear: Gear,
    pub number: u64,
}

impl Run {
    pub fn new() -> Self {
        Run { gear: first_gear(), number: 0 }
    }

    pub fn step(&mut self, call: &Call) -> Result<Answer, Malformed> {
        if self.number == 0 && call.kind() != NEW {
            return Err("a list begins with a `new`".to_string());
        }
        self.number += 1;
        AT_HAND.set((self.number, *call));
        step(&mut self.gear, call)
    }

    /// The answer's four bytes and the digest of the record.
    pub fn tail(&self, answer: Answer) -> [u8; TAIL_LEN] {
        let mut tail = [0; TAIL_LEN];
        tail[..ANSWER_LEN].copy_from_slice(&answer.bytes());
        tail[ANSWER_LEN..].copy_from_slice(&digest(&image(&self.gear)).to_be_bytes());
        tail
    }
}

/// Performs calls and keeps their entries, answered.
pub struct Recorder {
    pub run: Run,
    pub entries: Vec<u8>,
}

impl Recorder {
    pub fn new() -> Self {
        Recorder { run: Run::new(), entries: Vec::new() }
    }

    pub fn gear(&self) -> &Gear {
        &self.run.gear
    }

    /// A malformed call here is a mistake of the program that makes the list.
    pub fn call(&mut self, call: Call) {
        match self.run.step(&call) {
            Ok(answer) => {
                self.entries.extend_from_slice(&call.0);
                self.entries.extend_from_slice(&self.run.tail(answer));
            }
            Err(why) => panic!("malformed: {why}"),
        }
    }

    pub fn calls(&mut self, calls: impl IntoIterator<Item = Call>) {
        for call in calls {
            self.call(call);
        }
    }
}
