//! Counts of command bytes, and of each write with each kind of DTR0.

use super::grid::{bytes, Axis, Grid};
use super::levels::{places, PLACES};
use super::Watch;
use crate::call::Call;
use crate::gear::Gear;
use crate::kinds::{QUERY, WRITE};
use crate::tables::write_bytes;

pub struct Commands {
    write_bytes: Vec<u8>,
    writes: Grid,
    queries: Grid,
    dtr0s: Grid,
}

impl Commands {
    pub fn new() -> Self {
        let writes: Axis = write_bytes().iter().map(|byte| format!("byte {byte}")).collect();
        let dtr0s: Axis = PLACES.iter().map(|place| format!("DTR0 {place}")).collect();
        Commands {
            write_bytes: write_bytes(),
            writes: Grid::new("write bytes", [bytes()]),
            queries: Grid::new("query bytes", [bytes()]),
            dtr0s: Grid::new("each write with each kind of DTR0", [writes, dtr0s]),
        }
    }

    fn write(&mut self, gear: &Gear, byte: u8, dtr0: u8) {
        self.writes.hit(&[byte.into()]);
        if let Some(write) = self.write_bytes.iter().position(|at| *at == byte) {
            places(dtr0, gear).for_each(|place| self.dtr0s.hit(&[write, place]));
        }
    }
}

impl Watch for Commands {
    fn before(&mut self, gear: &Gear, call: &Call) {
        match call.kind() {
            WRITE => self.write(gear, call.byte(1), call.byte(2)),
            QUERY => self.queries.hit(&[call.byte(1).into()]),
            _ => {}
        }
    }

    fn grids(&self) -> Vec<&Grid> {
        vec![&self.writes, &self.queries, &self.dtr0s]
    }
}
