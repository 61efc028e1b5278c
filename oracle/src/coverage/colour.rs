//! Counts of colour values by capability and mode, of Tc limit stores, and of activations.

use super::grid::{bytes, names, no_yes, Axis, Grid};
use super::Watch;
use crate::call::Call;
use crate::calls::mode_byte;
use crate::fit::effective_limits;
use crate::gear::{ColorMode, Gear};
use crate::kinds::{ACTIVATE, ARC_POWER, COLOUR_VALUE, STORE_TC_LIMIT, TC_STEP, WRITE, XY_STEP};

const CAPABILITIES: [&str; 8] =
    ["none", "channels", "xy", "xy and channels", "Tc", "Tc and channels", "Tc and xy", "all"];
const MODES: [&str; 4] = ["no colour", "Tc", "xy", "RGBWAF"];
const REPORTS: [&str; 5] = ["no colour", "Tc", "xy", "RGBWAF", "another type byte"];

fn capability(gear: &Gear) -> usize {
    let spec = &gear.spec;
    let bits = [spec.tc_capable, spec.xy_capable, spec.rgbwaf_channels > 0];
    bits.iter().fold(0, |sum, bit| sum * 2 + usize::from(*bit))
}

fn report(gear: &Gear) -> usize {
    let types = [0xFF, 0x20, 0x10, 0x80];
    types.iter().position(|at| *at == gear.report.colour_type).unwrap_or(types.len())
}

fn prefixed(word: &str, labels: &[&str]) -> Axis {
    labels.iter().map(|label| format!("{word} {label}")).collect()
}

pub struct Values {
    ids: Grid,
    active: Grid,
    staged: Grid,
    reported: Grid,
}

impl Values {
    pub fn new() -> Self {
        let ids: Axis = bytes().iter().map(|id| format!("id {id}")).collect();
        let grid = |title, last| Grid::new(title, [ids.clone(), prefixed("capability", &CAPABILITIES), last]);
        Values {
            ids: Grid::new("colour value ids", [bytes()]),
            active: grid("each id by capability and active mode", prefixed("active", &MODES)),
            staged: grid("each id by capability and staged mode", prefixed("staged", &MODES)),
            reported: grid("each id by capability and report", prefixed("report", &REPORTS)),
        }
    }
}

impl Watch for Values {
    fn before(&mut self, gear: &Gear, call: &Call) {
        if call.kind() != COLOUR_VALUE {
            return;
        }
        let (id, capability) = (usize::from(call.byte(1)), capability(gear));
        self.ids.hit(&[id]);
        self.active.hit(&[id, capability, mode_byte(gear.color_mode).into()]);
        self.staged.hit(&[id, capability, mode_byte(gear.pending_mode).into()]);
        self.reported.hit(&[id, capability, report(gear)]);
    }

    fn grids(&self) -> Vec<&Grid> {
        vec![&self.ids, &self.active, &self.staged, &self.reported]
    }
}

const SELECTORS: [&str; 7] = ["0", "1", "2", "3", "4", "255", "others"];
const LIMITS: [&str; 4] = ["physical coolest", "physical warmest", "stored coolest", "stored warmest"];
const ENDS: [u16; 4] = [0, 1, 65_534, 65_535];
const WAYS: [&str; 5] = ["by activation", "by arc, on", "by arc, off", "by scene, on", "by scene, off"];
const STEPS: [&str; 6] = [
    "Tc cooler at coolest",
    "Tc warmer at warmest",
    "x down near 0",
    "x up near the top",
    "y down near 0",
    "y up near the top",
];

pub struct Changes {
    selectors: Grid,
    stores: Grid,
    activations: Grid,
    steps: Grid,
}

impl Changes {
    pub fn new() -> Self {
        let selectors = prefixed("selector", &SELECTORS);
        let mut values = names(&ENDS);
        for limit in LIMITS {
            values.extend(["one below", "at", "one above"].map(|place| format!("{place} {limit}")));
        }
        let mut stores =
            Grid::new("Tc limit stores by value and active Tc", [selectors.clone(), values.clone(), no_yes()]);
        for value in 0..values.len() {
            (0..2).for_each(|active| stores.excuse(&[6, value, active]));
        }
        Changes {
            selectors: Grid::new("Tc selectors", [selectors]),
            stores,
            activations: Grid::new(
                "activations",
                [prefixed("staged", &MODES), prefixed("active", &MODES), names(&WAYS)],
            ),
            steps: Grid::new("steps at their ends", [names(&STEPS)]),
        }
    }

    fn store(&mut self, gear: &Gear, selector: u8, value: u16) {
        let selector = [0, 1, 2, 3, 4, 255].iter().position(|at| *at == selector).unwrap_or(6);
        let physical = [gear.spec.tc_coolest_mirek, gear.spec.tc_warmest_mirek];
        let limits = [physical, [gear.tc_coolest_limit, gear.tc_warmest_limit]].concat();
        let beside = limits.iter().flat_map(|limit| [limit.checked_sub(1), Some(*limit), limit.checked_add(1)]);
        let points: Vec<Option<u16>> = ENDS.map(Some).into_iter().chain(beside).collect();
        let active = gear.color_mode == ColorMode::Cct;
        self.selectors.hit(&[selector]);
        for place in (0..points.len()).filter(|place| points[*place] == Some(value)) {
            self.stores.hit(&[selector, place, active.into()]);
        }
    }

    fn activation(&mut self, gear: &Gear, way: usize) {
        self.activations.hit(&[mode_byte(gear.pending_mode).into(), mode_byte(gear.color_mode).into(), way]);
    }

    fn step(&mut self, gear: &Gear, call: &Call) {
        let (coolest, warmest) = effective_limits(gear);
        let (tc, xy) = (gear.color_mode == ColorMode::Cct, gear.color_mode == ColorMode::Xy);
        let (first, second, is_tc) = (call.flag(1), call.flag(2), call.kind() == TC_STEP);
        let near = |value: u16, up: bool| if up { value >= 65_278 } else { value < 256 };
        let ends = [
            is_tc && tc && !first && gear.color_ct == coolest,
            is_tc && tc && first && gear.color_ct == warmest,
            !is_tc && xy && !first && !second && near(gear.color_x, false),
            !is_tc && xy && !first && second && near(gear.color_x, true),
            !is_tc && xy && first && !second && near(gear.color_y, false),
            !is_tc && xy && first && second && near(gear.color_y, true),
        ];
        (0..ends.len()).filter(|end| ends[*end]).for_each(|end| self.steps.hit(&[end]));
    }
}

impl Watch for Changes {
    fn before(&mut self, gear: &Gear, call: &Call) {
        let off = usize::from(!gear.automatic_activation());
        match (call.kind(), call.byte(1)) {
            (STORE_TC_LIMIT, selector) => self.store(gear, selector, call.word(2)),
            (ACTIVATE, _) => self.activation(gear, 0),
            (ARC_POWER, _) | (WRITE, 0..=8 | 10) => self.activation(gear, 1 + off),
            (WRITE, 16..=31) => self.activation(gear, 3 + off),
            (TC_STEP | XY_STEP, _) => self.step(gear, call),
            _ => {}
        }
    }

    fn grids(&self) -> Vec<&Grid> {
        vec![&self.selectors, &self.stores, &self.activations, &self.steps]
    }
}
