//! Counts of fresh gears of each kind, of queries on them, and of profiles refused.

use super::grid::{Axis, Grid};
use super::Watch;
use crate::answer::{Answer, PROFILE_NOT_ACCEPTED};
use crate::call::Call;
use crate::gear::{Gear, GearSpec};
use crate::kinds::{NEW, QUERY};
use crate::profile::{is_adjustable, Profile};
use crate::tables::query_bytes;

type GearKind = (&'static str, fn(&GearSpec) -> bool);

fn has(spec: &GearSpec, code: u8) -> bool {
    spec.device_types.contains(&code)
}

/// Type 8 with these capabilities and no other: Tc, xy, channels.
fn capable(spec: &GearSpec, tc: bool, xy: bool, channels: bool) -> bool {
    has(spec, 8) && (spec.tc_capable, spec.xy_capable, spec.rgbwaf_channels > 0) == (tc, xy, channels)
}

fn channels(spec: &GearSpec, count: u8) -> bool {
    has(spec, 8) && spec.rgbwaf_channels == count
}

const GEAR_KINDS: &[GearKind] = &[
    ("type 6", |s| has(s, 6)),
    ("type 7 adjustable", |s| has(s, 7) && is_adjustable(s)),
    ("type 7 not adjustable", |s| has(s, 7) && !is_adjustable(s)),
    ("type 8, no capability", |s| capable(s, false, false, false)),
    ("type 8, Tc", |s| capable(s, true, false, false)),
    ("type 8, xy", |s| capable(s, false, true, false)),
    ("type 8, channels", |s| capable(s, false, false, true)),
    ("type 8, Tc and xy", |s| capable(s, true, true, false)),
    ("type 8, Tc and channels", |s| capable(s, true, false, true)),
    ("type 8, xy and channels", |s| capable(s, false, true, true)),
    ("type 8, all", |s| capable(s, true, true, true)),
    ("type 8, 0 channels", |s| channels(s, 0)),
    ("type 8, 1 channel", |s| channels(s, 1)),
    ("type 8, 2 channels", |s| channels(s, 2)),
    ("type 8, 3 channels", |s| channels(s, 3)),
    ("type 8, 4 channels", |s| channels(s, 4)),
    ("type 8, 5 channels", |s| channels(s, 5)),
    ("type 8, 6 channels", |s| channels(s, 6)),
    ("no short address", |s| s.short_address.is_none()),
    ("short address 0", |s| s.short_address == Some(0)),
    ("short address 63", |s| s.short_address == Some(63)),
    ("physical minimum 1", |s| s.phm == 1),
    ("physical minimum 100", |s| s.phm == 100),
    ("physical minimum 254", |s| s.phm == 254),
    ("random address 0", |s| s.random_address == 0),
    ("random address 1", |s| s.random_address == 1),
    ("random address 16,777,215", |s| s.random_address == 0xFF_FFFF),
    ("equal Tc limits", |s| s.tc_coolest_mirek == s.tc_warmest_mirek),
    ("holds_dtr0", |s| s.holds_dtr0_on_unimplemented),
    ("no indicator byte", |s| s.indicator_byte_unimplemented),
    ("list of 13", |s| s.device_types.len() == 13),
    ("list of 2", |s| s.device_types.len() == 2),
    ("list of 1", |s| s.device_types.len() == 1),
    ("list of 0", |s| s.device_types.is_empty()),
];

/// The last two kinds of gear cannot have a code twice.
const CANNOT_REPEAT: usize = 2;

type Reason = (&'static str, fn(&Profile) -> bool);

const REASONS: &[Reason] = &[
    ("14 types", |p| p.type_count == 14),
    ("255 types", |p| p.type_count == 255),
    ("short address 64", |p| p.short_address == 64),
    ("short address 254", |p| p.short_address == 254),
    ("random address 16,777,216", |p| p.random_address == 0x100_0000),
    ("channels 7", |p| p.channels == 7),
    ("physical minimum 0", |p| p.physical_minimum == 0),
    ("physical minimum 255", |p| p.physical_minimum == 255),
    ("coolest one above warmest", |p| p.warmest.checked_add(1) == Some(p.coolest)),
    ("warmest 65,535", |p| p.warmest == 65_535),
    ("coolest 65,535", |p| p.coolest == 65_535),
];

const BASES: [u8; 3] = [6, 7, 8];

pub struct Gears {
    query_bytes: Vec<u8>,
    fresh: Grid,
    queries: Grid,
    refused: Grid,
}

fn labels<T>(items: &[(&'static str, T)]) -> Axis {
    items.iter().map(|(name, _)| name.to_string()).collect()
}

impl Gears {
    pub fn new() -> Self {
        let kinds = labels(GEAR_KINDS);
        let twice: Axis = vec!["codes once".to_string(), "a code twice".to_string()];
        let queries: Axis = query_bytes().iter().map(|byte| format!("query {byte}")).collect();
        let bases: Axis = BASES.iter().map(|code| format!("type {code}")).collect();
        let mut fresh = Grid::new("fresh gears", [kinds.clone(), twice]);
        for kind in GEAR_KINDS.len() - CANNOT_REPEAT..GEAR_KINDS.len() {
            fresh.excuse(&[kind, 1]);
        }
        Gears {
            query_bytes: query_bytes(),
            fresh,
            queries: Grid::new("each query on each kind of gear", [queries, kinds]),
            refused: Grid::new("profiles refused", [labels(REASONS), bases]),
        }
    }

    fn refusal(&mut self, profile: &Profile) {
        for (reason, (_, holds)) in REASONS.iter().enumerate() {
            let base = BASES.iter().position(|code| *code == profile.types[0]);
            if let (true, Some(base)) = (holds(profile), base) {
                self.refused.hit(&[reason, base]);
            }
        }
    }
}

fn has_code_twice(codes: &[u8]) -> bool {
    (0..codes.len()).any(|at| codes[at + 1..].contains(&codes[at]))
}

fn kinds_of(gear: &Gear) -> impl Iterator<Item = usize> + '_ {
    (0..GEAR_KINDS.len()).filter(|kind| GEAR_KINDS[*kind].1(&gear.spec))
}

impl Watch for Gears {
    fn before(&mut self, gear: &Gear, call: &Call) {
        let query = self.query_bytes.iter().position(|at| *at == call.byte(1));
        if let (QUERY, Some(query)) = (call.kind(), query) {
            kinds_of(gear).for_each(|kind| self.queries.hit(&[query, kind]));
        }
    }

    fn after(&mut self, gear: &Gear, call: &Call, answer: Answer) {
        if call.kind() != NEW {
            return;
        }
        if answer == PROFILE_NOT_ACCEPTED {
            return self.refusal(&Profile::from_call(call));
        }
        let twice = has_code_twice(&gear.spec.device_types);
        kinds_of(gear).for_each(|kind| self.fresh.hit(&[kind, twice.into()]));
    }

    fn grids(&self) -> Vec<&Grid> {
        vec![&self.fresh, &self.queries, &self.refused]
    }
}
