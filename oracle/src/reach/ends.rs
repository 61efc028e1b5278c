//! Counts of the last lines: the level, min and max that a session ends with.

use super::Watch;
use crate::coverage::grid::{names, Grid};
use crate::gear::Gear;

const LEVELS: [&str; 4] = ["level 0", "level within", "level below min", "level above max"];
const BOUNDS: [&str; 3] = ["min and max as fresh", "other", "equal"];

pub struct Ends(Grid);

impl Ends {
    pub fn new() -> Self {
        let mut grid = Grid::new("ends of sessions", [names(&LEVELS), names(&BOUNDS)]);
        // No level is above the max of a fresh gear.
        grid.excuse(&[3, 0]);
        Ends(grid)
    }
}

impl Watch for Ends {
    fn end(&mut self, gear: &Gear) {
        let level = match gear.level {
            0 => 0,
            level if level < gear.min_level => 2,
            level if level > gear.max_level => 3,
            _ => 1,
        };
        let bounds = match (gear.min_level, gear.max_level) {
            (min, max) if min == max => 2,
            (min, 254) if min == gear.spec.phm => 0,
            _ => 1,
        };
        self.0.hit(&[level, bounds]);
    }

    fn grids(&self) -> Vec<&Grid> {
        vec![&self.0]
    }
}
