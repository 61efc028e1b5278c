//! Counts of what concerns the bus: type walks, pairs, addresses, power cycles.

use super::grid::{bytes, names, Grid};
use super::Watch;
use crate::answer::{Answer, GROUP_ABOVE_15};
use crate::call::Call;
use crate::gear::Gear;
use crate::kinds::{HEAR, MATCHES, POWER_CYCLE, QUERY};

const WALK_COUNTS: [usize; 5] = [0, 1, 2, 13, 16];

/// A walk is whole when query 153 is followed at once by two more queries 167 than there are codes.
pub struct Walks {
    whole: Grid,
    steps: Option<usize>,
}

impl Walks {
    pub fn new() -> Self {
        Walks { whole: Grid::new("whole walks by count of codes", [names(&WALK_COUNTS)]), steps: None }
    }
}

impl Watch for Walks {
    fn before(&mut self, gear: &Gear, call: &Call) {
        let count = gear.spec.device_types.len();
        self.steps = match (call.kind(), call.byte(1)) {
            (QUERY, 153) => Some(0),
            (QUERY, 167) => self.steps.map(|steps| steps + 1),
            _ => None,
        };
        let place = WALK_COUNTS.iter().position(|at| *at == count);
        if let (Some(place), true) = (place, self.steps == Some(count + 2)) {
            self.whole.hit(&[place]);
        }
    }

    fn grids(&self) -> Vec<&Grid> {
        vec![&self.whole]
    }
}

const PAIRS: [(&str, bool, u16); 6] = [
    ("opens", true, 0),
    ("runs at once", false, 1),
    ("completes, repeats", true, 3),
    ("completes, does not repeat", false, 3),
    ("splits and opens", true, 4),
    ("splits and runs", false, 5),
];
const ADDRESSES: [&str; 4] = ["short", "group", "broadcast", "unaddressed"];
const MATCHED: [&str; 3] = ["no", "yes", "refused"];
const ENABLED: [&str; 2] = ["not enabled", "enabled"];
const POWER_ON: [&str; 4] = ["255", "0", "within min..max", "outside min..max"];

pub struct Bus {
    pairs: Grid,
    matches: Grid,
    shorts: Grid,
    groups: Grid,
    power: Grid,
}

impl Bus {
    pub fn new() -> Self {
        Bus {
            pairs: Grid::new("hear", [names(&PAIRS.map(|(name, _, _)| name))]),
            matches: matches_grid(),
            shorts: Grid::new("short addresses asked for", [bytes()]),
            groups: Grid::new("groups asked for", [bytes()]),
            power: Grid::new("power cycles by power-on level", [names(&POWER_ON)]),
        }
    }

    fn matched(&mut self, gear: &Gear, call: &Call, answer: Answer) {
        let (kind, number) = (usize::from(call.byte(1)), usize::from(call.byte(2)));
        let result = if answer == GROUP_ABOVE_15 { 2 } else { usize::from(answer == Answer::Bool(true)) };
        self.matches.hit(&[kind, gear.enabled.into(), result]);
        match kind {
            0 => self.shorts.hit(&[number]),
            1 => self.groups.hit(&[number]),
            _ => {}
        }
    }

    fn heard(&mut self, call: &Call, answer: Answer) {
        let value = if let Answer::Value(value) = answer { value } else { u16::MAX };
        let place = PAIRS.iter().position(|(_, repeats, bits)| (*repeats, *bits) == (call.flag(3), value));
        self.pairs.hit(&[place.expect("one of the six cases")]);
    }
}

/// Only a group is refused, only an enabled gear matches, and broadcast always does.
fn matches_grid() -> Grid {
    let mut grid = Grid::new("matches", [names(&ADDRESSES), names(&ENABLED), names(&MATCHED)]);
    for kind in [0, 2, 3] {
        (0..2).for_each(|enabled| grid.excuse(&[kind, enabled, 2]));
    }
    (0..4).for_each(|kind| grid.excuse(&[kind, 0, 1]));
    grid.excuse(&[2, 1, 0]);
    grid
}

impl Watch for Bus {
    fn before(&mut self, gear: &Gear, call: &Call) {
        if call.kind() == POWER_CYCLE {
            let place = match gear.power_on.level {
                255 => 0,
                0 => 1,
                level if (gear.min_level..=gear.max_level).contains(&level) => 2,
                _ => 3,
            };
            self.power.hit(&[place]);
        }
    }

    fn after(&mut self, gear: &Gear, call: &Call, answer: Answer) {
        match call.kind() {
            HEAR => self.heard(call, answer),
            MATCHES => self.matched(gear, call, answer),
            _ => {}
        }
    }

    fn grids(&self) -> Vec<&Grid> {
        vec![&self.pairs, &self.matches, &self.shorts, &self.groups, &self.power]
    }
}
