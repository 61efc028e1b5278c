//! The commands over session files: one file, a stream of them, one file as a list of calls.

use super::file::{lowest, read, BUFFER_LEN};
use super::frames::{write_frame, Frames};
use super::lines::lines;
use crate::calls::write;
use crate::list::{Fault, Recorder};
use std::io::{self, Read, Write};

/// A byte in no table: such a write is refused with the number of a step of a kind not listed.
const NO_COMMAND: u8 = 255;

pub fn run_one(input: impl Read, out: &mut impl Write) -> Result<(), Fault> {
    Ok(out.write_all(lines(&read_input(input)?).as_bytes())?)
}

pub fn run_stream(input: impl Read, out: &mut impl Write) -> Result<(), Fault> {
    let mut frames = Frames::new(input);
    while let Some(file) = frames.next_file()? {
        write_frame(out, lines(&file).as_bytes())?;
    }
    Ok(())
}

/// Call n + 1 of the list is step n.
pub fn write_calls(input: impl Read, out: &mut impl Write) -> Result<(), Fault> {
    let session = read(&read_input(input)?).map_err(|faults| Fault::Session(lowest(&faults)))?;
    let mut recorder = Recorder::new();
    recorder.call(session.profile.call());
    recorder.calls(session.steps.iter().map(|step| step.call().unwrap_or(write(NO_COMMAND, 0))));
    Ok(out.write_all(&recorder.entries)?)
}

/// Reads until the program's buffer would be full or the input ends.
fn read_input(input: impl Read) -> io::Result<Vec<u8>> {
    let mut bytes = Vec::new();
    input.take(BUFFER_LEN as u64).read_to_end(&mut bytes)?;
    Ok(bytes)
}
