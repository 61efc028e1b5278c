//! What a list reaches: tables of counts, and the points that it was to reach and did not.

mod bus;
pub mod capabilities;
mod colour;
mod commands;
mod gears;
pub mod grid;
mod kinds;
pub mod levels;
mod memory;
mod record;

use crate::answer::Answer;
use crate::call::Call;
use crate::gear::Gear;
use crate::list::{Fault, Reader, Run};
use grid::Grid;
use std::io::{Read, Write};

/// Watches a list go by and keeps tables of what it saw.
pub trait Watch {
    fn before(&mut self, _gear: &Gear, _call: &Call) {}
    fn after(&mut self, _gear: &Gear, _call: &Call, _answer: Answer) {}
    fn grids(&self) -> Vec<&Grid>;
}

fn watches() -> Vec<Box<dyn Watch>> {
    vec![
        Box::new(kinds::Kinds::new()),
        Box::new(commands::Commands::new()),
        Box::new(gears::Gears::new()),
        Box::new(levels::Levels::new()),
        Box::new(colour::Values::new()),
        Box::new(capabilities::Capabilities::new()),
        Box::new(colour::Changes::new()),
        Box::new(memory::Memory::new()),
        Box::new(bus::Walks::new()),
        Box::new(bus::Bus::new()),
        Box::new(record::Record::new()),
    ]
}

/// False where something is missed.
pub fn coverage(input: impl Read, out: &mut impl Write, summary: bool) -> Result<bool, Fault> {
    let mut watches = watches();
    let mut reader = Reader::new(input);
    let mut run = Run::new();
    while let Some(entry) = reader.next_entry()? {
        watches.iter_mut().for_each(|watch| watch.before(&run.gear, &entry.call));
        let answer = run.step(&entry.call).map_err(|why| reader.malformed(why))?;
        watches.iter_mut().for_each(|watch| watch.after(&run.gear, &entry.call, answer));
    }
    writeln!(out, "{} calls", run.number)?;
    let grids: Vec<&Grid> = watches.iter().flat_map(|watch| watch.grids()).collect();
    Ok(grid::report(&grids, out, summary)?)
}
