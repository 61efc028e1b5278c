//! Counts of type walks: whole ones, and those that go on behind a refused step.

use super::Watch;
use crate::answer::Answer;
use crate::coverage::grid::{names, Grid};
use crate::gear::Gear;
use crate::session::file::Session;
use crate::session::step::{Step, QUERY};

const DEVICE_TYPE: u8 = 153;
const NEXT_DEVICE_TYPE: u8 = 167;

/// A walk is whole when query 153 is followed by two more queries 167 than there are codes, with nothing
/// between but refused steps.
pub struct Walks {
    whole: Grid,
    interrupted: Grid,
    steps: Option<usize>,
    refused: bool,
}

const COUNTS: [&str; 5] = ["0 codes", "1 code", "2 codes", "3 to 12 codes", "13 codes"];

fn place(count: usize) -> usize {
    match count {
        0..3 => count,
        3..13 => 3,
        _ => 4,
    }
}

impl Walks {
    pub fn new() -> Self {
        Walks {
            whole: Grid::new("whole walks", [names(&COUNTS)]),
            interrupted: Grid::new("whole walks with a refused step within", [names(&COUNTS)]),
            steps: None,
            refused: false,
        }
    }
}

impl Watch for Walks {
    fn well_formed(&mut self, _file: &[u8], _session: &Session) {
        self.steps = None;
    }

    fn after(&mut self, gear: &Gear, step: Step, answer: Answer) {
        match (step.0[0], step.0[1]) {
            (QUERY, DEVICE_TYPE) => (self.steps, self.refused) = (Some(0), false),
            (QUERY, NEXT_DEVICE_TYPE) => self.steps = self.steps.map(|steps| steps + 1),
            _ if answer == Answer::Refused(3) => self.refused = true,
            _ => self.steps = None,
        }
        let count = gear.spec.device_types.len();
        if self.steps == Some(count + 2) {
            let grid = if self.refused { &mut self.interrupted } else { &mut self.whole };
            grid.hit(&[place(count)]);
        }
    }

    fn grids(&self) -> Vec<&Grid> {
        vec![&self.whole, &self.interrupted]
    }
}
