//! Counts of how the record moves: every byte of its image, and long runs away from fresh.

use super::grid::{names, Axis, Grid};
use super::Watch;
use crate::answer::Answer;
use crate::call::Call;
use crate::gear::Gear;
use crate::image::{digest, digest_by_definition, image, Image, FIELDS};
use crate::kinds::{NEW, POWER_CYCLE, WRITE};
use crate::profile::first_gear;

/// A run is long when so many calls follow each other without a new gear, reset or power cycle.
const LONG: u64 = 2_000;

pub struct Record {
    bytes: Grid,
    moved: Grid,
    runs: Grid,
    image: Image,
    run: u64,
}

impl Record {
    pub fn new() -> Self {
        Record {
            bytes: Grid::new("bytes of the image that change", [byte_names()]),
            moved: Grid::new("calls", [names(&["that leave the record as it was", "that change it"])]),
            runs: Grid::new("runs of 2,000 calls without new, reset or power cycle", [names(&["runs"])]),
            image: image(&first_gear()),
            run: 0,
        }
    }
}

fn byte_names() -> Axis {
    let name_bytes = |(name, form): &(&str, crate::kinds::Form)| {
        let bytes = (0..form.len()).map(|byte| format!("{name} byte {byte}"));
        bytes.collect::<Vec<String>>()
    };
    FIELDS.iter().flat_map(name_bytes).collect()
}

impl Watch for Record {
    fn after(&mut self, gear: &Gear, call: &Call, _answer: Answer) {
        let after = image(gear);
        assert_eq!(digest(&after), digest_by_definition(&after), "the quick digest is the defined one");
        for byte in (0..after.len()).filter(|byte| after[*byte] != self.image[*byte]) {
            self.bytes.hit(&[byte]);
        }
        self.moved.hit(&[(after != self.image).into()]);
        self.image = after;
        let renews = matches!((call.kind(), call.byte(1)), (NEW | POWER_CYCLE, _) | (WRITE, 32));
        self.run = if renews { 0 } else { self.run + 1 };
        if self.run == LONG {
            self.runs.hit(&[0]);
        }
    }

    fn grids(&self) -> Vec<&Grid> {
        vec![&self.moved, &self.bytes, &self.runs]
    }
}
