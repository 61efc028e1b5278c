//! Counts of what makes files malformed: the lowest fault, two faults at once, where a file is cut off.

use super::Watch;
use crate::coverage::grid::{names, Axis, Grid};
use crate::session::file::Field::{self, *};
use crate::session::file::{Fault, Session, Trouble};

/// The fields that can be out of range.
const JUDGED: [Field; 8] =
    [TypeCount, ProfileCount, ShortAddress, Flags, Channels, Warmest, PhysicalMinimum, StepCount];
const COUNTS: [Field; 3] = [TypeCount, ProfileCount, StepCount];

/// A field and how many of its bytes are there; of the types none or some, of the steps those of the last one.
const CUTS: [(Field, usize); 21] = [
    (TypeCount, 0),
    (Types, 0),
    (Types, 1),
    (ProfileCount, 0),
    (ShortAddress, 0),
    (RandomAddress, 0),
    (RandomAddress, 1),
    (RandomAddress, 2),
    (Flags, 0),
    (Channels, 0),
    (Coolest, 0),
    (Coolest, 1),
    (Warmest, 0),
    (Warmest, 1),
    (PhysicalMinimum, 0),
    (StepCount, 0),
    (StepCount, 1),
    (Steps, 0),
    (Steps, 1),
    (Steps, 2),
    (Steps, 3),
];

/// The fields that can be bad by their first byte and yet be cut off behind it.
const BAD_BY_FIRST_BYTE: [Field; 2] = [Warmest, StepCount];

pub struct Faults {
    troubles: Vec<Trouble>,
    files: Grid,
    lowest: Grid,
    numbers: Grid,
    pairs: Grid,
    cuts: Grid,
    not_judged: Grid,
}

impl Faults {
    pub fn new() -> Self {
        let troubles = troubles();
        let not_judged = BAD_BY_FIRST_BYTE.map(Field::name);
        Faults {
            files: Grid::new("files", [names(&["well formed", "malformed"])]),
            lowest: Grid::new("lowest fault", [trouble_names(&troubles)]),
            numbers: Grid::new("faults in a malformed file", [names(&["1", "2", "3 and more"])]),
            pairs: pairs_grid(&troubles),
            cuts: Grid::new("files cut off", [cut_names()]),
            not_judged: Grid::new("bad by its first byte, but cut off behind it", [names(&not_judged)]),
            troubles,
        }
    }

    fn index(&self, trouble: Trouble) -> usize {
        self.troubles.iter().position(|at| *at == trouble).expect("a known trouble")
    }

    fn cut(&mut self, file: &[u8], field: Field, start: usize) {
        let there = file.len() - start;
        let counted = match field {
            Types => there.min(1),
            Steps => there % 4,
            _ => there,
        };
        let cut = CUTS.iter().position(|cut| *cut == (field, counted));
        self.cuts.hit(&[cut.expect("a known cut")]);
        if let (Some(place), 1) = (BAD_BY_FIRST_BYTE.iter().position(|at| *at == field), there) {
            if bad_by_first_byte(file, field, start) {
                self.not_judged.hit(&[place]);
            }
        }
    }
}

fn troubles() -> Vec<Trouble> {
    let missing = Field::ALL.map(Trouble::Missing);
    let out_of_range = JUDGED.map(Trouble::OutOfRange);
    missing.into_iter().chain(out_of_range).chain([Trouble::Surplus]).collect()
}

fn trouble_names(troubles: &[Trouble]) -> Axis {
    let name = |trouble: &Trouble| match trouble {
        Trouble::Missing(field) => format!("{} missing", field.name()),
        Trouble::OutOfRange(field) => format!("{} out of range", field.name()),
        Trouble::Surplus => "surplus".to_string(),
    };
    troubles.iter().map(name).collect()
}

fn cut_names() -> Axis {
    let name = |(field, there): &(Field, usize)| format!("{}, {there} of its bytes there", field.name());
    CUTS.iter().map(name).collect()
}

fn pairs_grid(troubles: &[Trouble]) -> Grid {
    let names = trouble_names(troubles);
    let mut grid = Grid::new("two faults", [names.clone(), names]);
    for (i, first) in troubles.iter().enumerate() {
        for (j, second) in troubles.iter().enumerate() {
            if !may_follow(*first, *second) {
                grid.excuse(&[i, j]);
            }
        }
    }
    grid
}

/// Only a field out of range that is no count has anything behind it.
fn may_follow(first: Trouble, second: Trouble) -> bool {
    match (first, second) {
        (Trouble::OutOfRange(field), _) if COUNTS.contains(&field) => false,
        (Trouble::OutOfRange(field), Trouble::OutOfRange(later) | Trouble::Missing(later)) => field < later,
        (Trouble::OutOfRange(_), Trouble::Surplus) => true,
        _ => false,
    }
}

/// For a field of two bytes of which one is there.
fn bad_by_first_byte(file: &[u8], field: Field, start: usize) -> bool {
    let highest = u16::from_be_bytes([file[start], 255]);
    let lowest = u16::from_be_bytes([file[start], 0]);
    match field {
        Warmest => highest < u16::from_be_bytes([file[start - 2], file[start - 1]]),
        _ => lowest > 4_096,
    }
}

impl Watch for Faults {
    fn well_formed(&mut self, _file: &[u8], _session: &Session) {
        self.files.hit(&[0]);
    }

    fn malformed(&mut self, file: &[u8], faults: &[Fault]) {
        self.files.hit(&[1]);
        self.numbers.hit(&[faults.len().min(3) - 1]);
        self.lowest.hit(&[self.index(faults[0].trouble)]);
        if let [first, second] = faults {
            self.pairs.hit(&[self.index(first.trouble), self.index(second.trouble)]);
        }
        for fault in faults {
            if let Trouble::Missing(field) = fault.trouble {
                self.cut(file, field, fault.start);
            }
        }
    }

    fn grids(&self) -> Vec<&Grid> {
        vec![&self.files, &self.lowest, &self.numbers, &self.pairs, &self.cuts, &self.not_judged]
    }
}
