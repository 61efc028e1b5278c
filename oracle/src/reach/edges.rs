//! Counts of values out of range: the first and the last of each field, and the ways to cross the limits.

use super::Watch;
use crate::coverage::grid::Grid;
use crate::session::file::Field::{self, *};
use crate::session::file::{Fault, Trouble};

/// A value out of range, and whether a field's value is that one; the last number is coolest.
type Edge = (Field, &'static str, fn(u16, u16) -> bool);

const EDGES: &[Edge] = &[
    (TypeCount, "14", |value, _| value == 14),
    (TypeCount, "255", |value, _| value == 255),
    (ProfileCount, "0", |value, _| value == 0),
    (ProfileCount, "10", |value, _| value == 10),
    (ProfileCount, "12", |value, _| value == 12),
    (ProfileCount, "255", |value, _| value == 255),
    (ShortAddress, "64", |value, _| value == 64),
    (ShortAddress, "254", |value, _| value == 254),
    (Flags, "bit 5 alone", |value, _| value & 0xE0 == 0x20),
    (Flags, "bit 6 alone", |value, _| value & 0xE0 == 0x40),
    (Flags, "bit 7 alone", |value, _| value & 0xE0 == 0x80),
    (Flags, "bits 5 to 7", |value, _| value & 0xE0 == 0xE0),
    (Channels, "7", |value, _| value == 7),
    (Channels, "255", |value, _| value == 255),
    (Warmest, "coolest - 1", |value, coolest| u32::from(value) + 1 == coolest.into()),
    (Warmest, "far below coolest", |value, coolest| u32::from(value) + 1_000 < coolest.into()),
    (Warmest, "255 below coolest 256", |value, coolest| (value, coolest) == (255, 256)),
    (Warmest, "65,535, and coolest below", |value, coolest| value == 65_535 && coolest < 65_535),
    (Warmest, "65,535, and coolest too", |value, coolest| value == 65_535 && coolest == 65_535),
    (Warmest, "in range, but coolest 65,535", |value, coolest| value < 65_535 && coolest == 65_535),
    (PhysicalMinimum, "0", |value, _| value == 0),
    (PhysicalMinimum, "255", |value, _| value == 255),
    (StepCount, "4,097", |value, _| value == 4_097),
    (StepCount, "65,535", |value, _| value == 65_535),
];

pub struct Edges(Grid);

impl Edges {
    pub fn new() -> Self {
        let name = |(field, value, _): &Edge| format!("{} {value}", field.name());
        Edges(Grid::new("values out of range", [EDGES.iter().map(name).collect()]))
    }
}

/// The field's value, and for warmest the number before it.
fn value_and_coolest(file: &[u8], field: Field, start: usize) -> (u16, u16) {
    let word = |at: usize| u16::from_be_bytes([file[at], file[at + 1]]);
    match field {
        Warmest => (word(start), word(start - 2)),
        StepCount => (word(start), 0),
        _ => (file[start].into(), 0),
    }
}

impl Watch for Edges {
    fn malformed(&mut self, file: &[u8], faults: &[Fault]) {
        for fault in faults {
            let Trouble::OutOfRange(field) = fault.trouble else {
                continue;
            };
            let (value, coolest) = value_and_coolest(file, field, fault.start);
            for (place, (of, _, holds)) in EDGES.iter().enumerate() {
                if *of == field && holds(value, coolest) {
                    self.0.hit(&[place]);
                }
            }
        }
    }

    fn grids(&self) -> Vec<&Grid> {
        vec![&self.0]
    }
}
