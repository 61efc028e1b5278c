//! Counts of the arguments of steps, and of every byte that has a meaning of its own.

use super::Watch;
use crate::coverage::grid::{bytes, Axis, Grid};
use crate::gear::Gear;
use crate::session::step::*;

/// A name, a kind of step, and whether its numbers are such: a, and b and c as one.
type Argument = (&'static str, u8, fn(u8, u16) -> bool);

const ARGUMENTS: &[Argument] = &[
    ("arc power 0", ARC_POWER, |a, _| a == 0),
    ("arc power 255", ARC_POWER, |a, _| a == 255),
    ("read of bank 0", MEMORY_READ, |a, _| a == 0),
    ("read of bank 1", MEMORY_READ, |a, _| a == 1),
    ("read of another bank", MEMORY_READ, |a, _| a > 1),
    ("write to bank 0", MEMORY_WRITE, |a, _| a == 0),
    ("write to bank 1", MEMORY_WRITE, |a, _| a == 1),
    ("write to another bank", MEMORY_WRITE, |a, _| a > 1),
    ("Tc selector 0", TC_LIMIT, |a, _| a == 0),
    ("Tc selector 1", TC_LIMIT, |a, _| a == 1),
    ("Tc selector 2", TC_LIMIT, |a, _| a == 2),
    ("Tc selector 3", TC_LIMIT, |a, _| a == 3),
    ("Tc selector above 3", TC_LIMIT, |a, _| a > 3),
    ("Tc limit 0", TC_LIMIT, |a, tc| a <= 3 && tc == 0),
    ("Tc limit 65,535", TC_LIMIT, |a, tc| a <= 3 && tc == 65_535),
    ("Tc step of byte 0", TC_STEP, |a, _| a == 0),
    ("Tc step of byte 1", TC_STEP, |a, _| a == 1),
    ("Tc step of another byte", TC_STEP, |a, _| a > 1),
    ("staged 0", STAGE_TC, |_, tc| tc == 0),
    ("staged 65,535", STAGE_TC, |_, tc| tc == 65_535),
    ("features 0", FEATURES, |a, _| a == 0),
    ("features 1", FEATURES, |a, _| a == 1),
    ("other features, activation off", FEATURES, |a, _| a > 1 && a % 2 == 0),
    ("other features, activation on", FEATURES, |a, _| a > 1 && a % 2 == 1),
    ("kind 13", 13, |_, _| true),
    ("kind 255", 255, |_, _| true),
];

pub struct Arguments {
    arguments: Grid,
    writes: Grid,
    queries: Grid,
    ids: Grid,
}

impl Arguments {
    pub fn new() -> Self {
        let arguments: Axis = ARGUMENTS.iter().map(|(name, _, _)| name.to_string()).collect();
        Arguments {
            arguments: Grid::new("arguments", [arguments]),
            writes: Grid::new("bytes of writes", [bytes()]),
            queries: Grid::new("bytes of queries", [bytes()]),
            ids: Grid::new("colour value ids", [bytes()]),
        }
    }
}

impl Watch for Arguments {
    fn before(&mut self, _gear: &Gear, step: Step) {
        let [kind, a, b, c] = step.0;
        for (place, (_, of, holds)) in ARGUMENTS.iter().enumerate() {
            if *of == kind && holds(a, u16::from_be_bytes([b, c])) {
                self.arguments.hit(&[place]);
            }
        }
        match kind {
            WRITE => self.writes.hit(&[a.into()]),
            QUERY => self.queries.hit(&[a.into()]),
            COLOUR_VALUE => self.ids.hit(&[a.into()]),
            _ => {}
        }
    }

    fn grids(&self) -> Vec<&Grid> {
        vec![&self.arguments, &self.writes, &self.queries, &self.ids]
    }
}
