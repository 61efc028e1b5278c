//! Counts of level commands: from which level, to which level, against which limit.

use super::grid::{names, Axis, Grid};
use super::Watch;
use crate::call::Call;
use crate::fit::floor;
use crate::gear::Gear;
use crate::kinds::{ARC_POWER, WRITE};

pub const PLACES: [&str; 11] = ["0", "1", "2", "min - 1", "min", "min + 1", "max - 1", "max", "max + 1", "254", "255"];

/// Which of `PLACES` a level or DTR0 stands at.
pub fn places(value: u8, gear: &Gear) -> impl Iterator<Item = usize> {
    let (min, max) = (gear.min_level, gear.max_level);
    let at = [0, 1, 2, min - 1, min, min + 1, max - 1, max, max + 1, 254, 255];
    (0..PLACES.len()).filter(move |place| at[*place] == value)
}

const LEVEL_BYTES: [u8; 10] = [0, 1, 2, 3, 4, 5, 6, 7, 8, 10];
const FLOOR_PLACES: [&str; 3] = ["floor - 1", "floor", "floor + 1"];
const LEVELS: [&str; 4] = ["level 0", "level below min", "level within", "level above max"];

pub struct Levels {
    from: Grid,
    arc: Grid,
    limits: Grid,
    floors: Grid,
}

impl Levels {
    pub fn new() -> Self {
        let levels = |word: &str| -> Axis { PLACES.iter().map(|place| format!("{word} {place}")).collect() };
        let bytes: Axis = LEVEL_BYTES.iter().map(|byte| format!("byte {byte}")).collect();
        let limits = names(&["SetMaxLevel", "SetMinLevel"]);
        Levels {
            from: Grid::new("level commands from each level", [bytes, levels("from")]),
            arc: Grid::new("arc power to each level", [levels("to")]),
            limits: Grid::new("limit writes by value and level", [limits, levels("value"), names(&LEVELS)]),
            floors: Grid::new("SetMinLevel at the floor", [names(&FLOOR_PLACES)]),
        }
    }

    /// Where nothing is placed: no call leads to level 255.
    pub fn of_calls_alone() -> Self {
        let mut levels = Levels::new();
        (0..LEVEL_BYTES.len()).for_each(|byte| levels.from.excuse(&[byte, PLACES.len() - 1]));
        levels
    }

    fn limit_write(&mut self, gear: &Gear, byte: u8, value: u8) {
        let level = match gear.level {
            0 => 0,
            level if level < gear.min_level => 1,
            level if level > gear.max_level => 3,
            _ => 2,
        };
        for place in places(value, gear) {
            self.limits.hit(&[usize::from(byte - 42), place, level]);
        }
        let floor = floor(gear);
        let from_floor = [floor - 1, floor, floor + 1].iter().position(|at| *at == value);
        if let (43, Some(place)) = (byte, from_floor) {
            self.floors.hit(&[place]);
        }
    }
}

impl Watch for Levels {
    fn before(&mut self, gear: &Gear, call: &Call) {
        let byte = call.byte(1);
        match call.kind() {
            ARC_POWER => places(byte, gear).for_each(|place| self.arc.hit(&[place])),
            WRITE if matches!(byte, 42 | 43) => self.limit_write(gear, byte, call.byte(2)),
            WRITE => {
                if let Some(command) = LEVEL_BYTES.iter().position(|at| *at == byte) {
                    places(gear.level, gear).for_each(|place| self.from.hit(&[command, place]));
                }
            }
            _ => {}
        }
    }

    fn grids(&self) -> Vec<&Grid> {
        vec![&self.from, &self.arc, &self.limits, &self.floors]
    }
}
