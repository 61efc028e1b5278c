//! What a stream of session files reaches: tables of counts, and the points that it was to reach and did not.

mod arguments;
mod edges;
mod ends;
mod faults;
mod lengths;
mod profiles;
mod steps;
mod walks;

use crate::answer::Answer;
use crate::coverage::capabilities::Capabilities;
use crate::coverage::grid::{self, Grid};
use crate::coverage::levels::Levels;
use crate::coverage::Watch as CallWatch;
use crate::gear::Gear;
use crate::list::Fault as StreamFault;
use crate::session::file::{lowest, read, read_part, Fault, Session};
use crate::session::frames::Frames;
use crate::session::lines::Runner;
use crate::session::step::Step;
use std::io::{Read, Write};

/// Watches files and the steps of the well formed ones go by, and keeps tables of what it saw.
trait Watch {
    fn well_formed(&mut self, _file: &[u8], _session: &Session) {}
    fn malformed(&mut self, _file: &[u8], _faults: &[Fault]) {}
    fn before(&mut self, _gear: &Gear, _step: Step) {}
    fn after(&mut self, _gear: &Gear, _step: Step, _answer: Answer) {}
    fn end(&mut self, _gear: &Gear) {}
    fn grids(&self) -> Vec<&Grid>;
}

type Watches = Vec<Box<dyn Watch>>;

fn watches() -> Watches {
    vec![
        Box::new(faults::Faults::new()),
        Box::new(edges::Edges::new()),
        Box::new(lengths::Lengths::new()),
        Box::new(profiles::Profiles::new()),
        Box::new(steps::Steps::new()),
        Box::new(arguments::Arguments::new()),
        Box::new(AsCalls(Capabilities::new())),
        Box::new(walks::Walks::new()),
        Box::new(AsCalls(Levels::of_calls_alone())),
        Box::new(ends::Ends::new()),
    ]
}

/// Shows the steps to one that watches calls.
struct AsCalls<W: CallWatch>(W);

impl<W: CallWatch> Watch for AsCalls<W> {
    fn before(&mut self, gear: &Gear, step: Step) {
        if let Some(call) = step.call() {
            self.0.before(gear, &call);
        }
    }

    fn after(&mut self, gear: &Gear, step: Step, answer: Answer) {
        if let Some(call) = step.call() {
            self.0.after(gear, &call, answer);
        }
    }

    fn grids(&self) -> Vec<&Grid> {
        self.0.grids()
    }
}

/// False where something is missed.
pub fn reach(input: impl Read, out: &mut impl Write, summary: bool) -> Result<bool, StreamFault> {
    let mut watches = watches();
    let mut frames = Frames::new(input);
    let mut files: u64 = 0;
    while let Some(file) = frames.next_file()? {
        files += 1;
        look_at(&file, &mut watches);
    }
    writeln!(out, "{files} session files")?;
    let grids: Vec<&Grid> = watches.iter().flat_map(|watch| watch.grids()).collect();
    Ok(grid::report(&grids, out, summary)?)
}

fn look_at(file: &[u8], watches: &mut Watches) {
    match read(read_part(file)) {
        Ok(session) => {
            watches.iter_mut().for_each(|watch| watch.well_formed(file, &session));
            run(&session, watches);
        }
        Err(faults) => {
            let of_the_whole = read(file).err().map(|faults| lowest(&faults));
            assert_eq!(of_the_whole, Some(lowest(&faults)), "what lies behind the buffer changes nothing");
            watches.iter_mut().for_each(|watch| watch.malformed(file, &faults));
        }
    }
}

fn run(session: &Session, watches: &mut Watches) {
    let mut runner = Runner::new(&session.profile);
    for step in &session.steps {
        watches.iter_mut().for_each(|watch| watch.before(runner.gear(), *step));
        let answer = runner.perform(*step);
        watches.iter_mut().for_each(|watch| watch.after(runner.gear(), *step, answer));
    }
    watches.iter_mut().for_each(|watch| watch.end(runner.gear()));
}
