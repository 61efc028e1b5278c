//! Counts of memory reads and writes by bank and offset, and of the bank setters.

use super::grid::{bytes, names, Axis, Grid};
use super::Watch;
use crate::call::Call;
use crate::gear::Gear;
use crate::kinds::{ADVANCES, IMPLEMENTS, MEMORY_READ, MEMORY_WRITE, SET_BANK1, SET_LAST_OFFSET, SET_LOCK};

const BANKS: [&str; 5] = ["bank 0", "bank 1", "bank 2", "bank 255", "other banks"];
const LOCKS: [&str; 2] = ["lock open", "lock closed"];
const OTHER_BANKS: usize = 4;
const LAST_OFFSETS: [u8; 9] = [0, 1, 25, 26, 27, 28, 29, 254, 255];
/// What stands at offset 0 of bank 1, which every read of it tells as 16.
const HIDDEN: [&str; 3] = ["16", "less", "more"];

pub struct Memory {
    reads: Grid,
    writes: Grid,
    advances: Grid,
    implements: Grid,
    locations: Grid,
    last_offsets: Grid,
    locks: Grid,
    hidden: Grid,
}

fn bank_index(bank: u8) -> usize {
    [0, 1, 2, 255].iter().position(|at| *at == bank).unwrap_or(OTHER_BANKS)
}

fn hidden_index(gear: &Gear) -> usize {
    match gear.bank1()[0] {
        16 => 0,
        0..=15 => 1,
        17.. => 2,
    }
}

impl Memory {
    pub fn new() -> Self {
        let banks = || names(&BANKS);
        let mut reads = Grid::new("memory reads", [banks(), bytes()]);
        let mut writes = Grid::new("memory writes", [names(&LOCKS), banks(), bytes()]);
        let holds: Axis = names(&["DTR0 not held", "DTR0 held"]);
        let mut advances = Grid::new("advances_dtr0_past", [holds, banks(), bytes()]);
        for offset in 0..256 {
            reads.excuse(&[OTHER_BANKS, offset]);
            (0..2).for_each(|lock| writes.excuse(&[lock, OTHER_BANKS, offset]));
            (0..2).for_each(|hold| advances.excuse(&[hold, OTHER_BANKS, offset]));
        }
        Memory {
            reads,
            writes,
            advances,
            implements: Grid::new("implements_bank", [bytes()]),
            locations: Grid::new("set_bank1_location", [bytes()]),
            last_offsets: Grid::new("set_bank0_last_offset", [names(&LAST_OFFSETS)]),
            locks: Grid::new("set_bank1_lock_byte", [names(&["0x54", "0x55", "0x56"])]),
            hidden: Grid::new("offset 0 of bank 1", [names(&HIDDEN), names(&["read", "16 written", "17 written"])]),
        }
    }
}

fn hit_if_known<T: PartialEq>(grid: &mut Grid, known: &[T], value: T) {
    if let Some(place) = known.iter().position(|at| *at == value) {
        grid.hit(&[place]);
    }
}

impl Watch for Memory {
    fn before(&mut self, gear: &Gear, call: &Call) {
        let (first, offset) = (call.byte(1), usize::from(call.byte(2)));
        let bank = bank_index(first);
        let closed = gear.bank1()[2] != 0x55;
        match call.kind() {
            MEMORY_READ => self.reads.hit(&[bank, offset]),
            MEMORY_WRITE => self.writes.hit(&[closed.into(), bank, offset]),
            ADVANCES => self.advances.hit(&[gear.spec.holds_dtr0_on_unimplemented.into(), bank, offset]),
            IMPLEMENTS => self.implements.hit(&[first.into()]),
            SET_BANK1 => self.locations.hit(&[first.into()]),
            SET_LAST_OFFSET => hit_if_known(&mut self.last_offsets, &LAST_OFFSETS, first),
            SET_LOCK => hit_if_known(&mut self.locks, &[0x54, 0x55, 0x56], first),
            _ => {}
        }
        match (call.kind(), first, offset) {
            (MEMORY_READ, 1, 0) => self.hidden.hit(&[hidden_index(gear), 0]),
            (MEMORY_WRITE, 1, 16 | 17) => self.hidden.hit(&[hidden_index(gear), offset - 15]),
            _ => {}
        }
    }

    fn grids(&self) -> Vec<&Grid> {
        let facts = [&self.advances, &self.implements, &self.locations, &self.last_offsets, &self.locks, &self.hidden];
        [&self.reads, &self.writes].into_iter().chain(facts).collect()
    }
}
