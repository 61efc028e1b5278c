//! Counts of lengths: of files, of the surplus behind them, of sessions in steps.

use super::Watch;
use crate::coverage::grid::{names, Grid};
use crate::session::file::{Fault, Field, Session, Trouble, BUFFER_LEN, STEPS_MAX};
use crate::session::step::STEP_LEN;

/// No types and no steps.
const SHORTEST: usize = 15;
const LONGEST: usize = BUFFER_LEN - 1;
const MOST_STEPS: usize = STEPS_MAX as usize;

const FILES: [&str; 7] = [
    "of 0 bytes",
    "shorter than any well formed file",
    "as short as a well formed file can be",
    "between",
    "as long as a well formed file can be",
    "as long as the buffer",
    "longer than the buffer",
];
const SURPLUS: [&str; 6] =
    ["1 byte", "2 or 3 bytes", "4 bytes", "more", "until the buffer is full", "more than the buffer takes"];
const SESSIONS: [&str; 7] = ["0 steps", "1 step", "2 to 9", "10 to 99", "100 to 999", "1,000 to 4,095", "4,096 steps"];
const ONE_TOO_MANY: [&str; 2] = ["in the count and in the file", "in the file"];

pub struct Lengths {
    files: Grid,
    surplus: Grid,
    sessions: Grid,
    one_too_many: Grid,
}

impl Lengths {
    pub fn new() -> Self {
        Lengths {
            files: files_grid(),
            surplus: Grid::new("surplus", [names(&SURPLUS)]),
            sessions: Grid::new("steps in well formed files", [names(&SESSIONS)]),
            one_too_many: Grid::new("a 4,097th step", [names(&ONE_TOO_MANY)]),
        }
    }

    fn fault(&mut self, file: &[u8], fault: &Fault) {
        let behind = file.len() - fault.start;
        match fault.trouble {
            Trouble::Surplus => {
                self.surplus.hit(&[surplus_place(file.len(), behind)]);
                if behind == STEP_LEN && has_most_steps(file, fault.start) {
                    self.one_too_many.hit(&[1]);
                }
            }
            Trouble::OutOfRange(Field::StepCount) if behind == 2 + (MOST_STEPS + 1) * STEP_LEN => {
                self.one_too_many.hit(&[0]);
            }
            _ => {}
        }
    }
}

/// Whether the session that ends here has the most steps.
fn has_most_steps(file: &[u8], end: usize) -> bool {
    let count = end.checked_sub(MOST_STEPS * STEP_LEN + 2).map(|at| &file[at..at + 2]);
    count == Some(&(MOST_STEPS as u16).to_be_bytes())
}

fn files_grid() -> Grid {
    let mut grid = Grid::new("lengths of files", [names(&["well formed", "malformed"]), names(&FILES)]);
    [0, 1, 5, 6].into_iter().for_each(|length| grid.excuse(&[0, length]));
    grid
}

fn file_place(length: usize) -> usize {
    match length {
        0 => 0,
        1..SHORTEST => 1,
        SHORTEST => 2,
        LONGEST => 4,
        BUFFER_LEN => 5,
        _ if length < LONGEST => 3,
        _ => 6,
    }
}

fn surplus_place(length: usize, surplus: usize) -> usize {
    match surplus {
        _ if length == BUFFER_LEN => 4,
        _ if length > BUFFER_LEN => 5,
        1 => 0,
        2 | 3 => 1,
        4 => 2,
        _ => 3,
    }
}

fn session_place(steps: usize) -> usize {
    match steps {
        0 => 0,
        1 => 1,
        2..10 => 2,
        10..100 => 3,
        100..1_000 => 4,
        1_000..MOST_STEPS => 5,
        _ => 6,
    }
}

impl Watch for Lengths {
    fn well_formed(&mut self, file: &[u8], session: &Session) {
        self.files.hit(&[0, file_place(file.len())]);
        self.sessions.hit(&[session_place(session.steps.len())]);
    }

    fn malformed(&mut self, file: &[u8], faults: &[Fault]) {
        self.files.hit(&[1, file_place(file.len())]);
        faults.iter().for_each(|fault| self.fault(file, fault));
    }

    fn grids(&self) -> Vec<&Grid> {
        vec![&self.files, &self.surplus, &self.sessions, &self.one_too_many]
    }
}
