//! Counts of the profiles of well formed files.

use super::Watch;
use crate::coverage::grid::{names, Axis, Grid};
use crate::profile::{Profile, FLAG_ADJUSTABLE, FLAG_TC, NO_SHORT_ADDRESS, TYPES_MAX};
use crate::session::file::Session;

type ProfileKind = (&'static str, fn(&Profile) -> bool);

fn has(profile: &Profile, code: u8) -> bool {
    profile.codes().contains(&code)
}

fn with(profile: &Profile, code: u8, flag: u8, on: bool) -> bool {
    has(profile, code) && (profile.flags & flag != 0) == on
}

const KINDS: &[ProfileKind] = &[
    ("type 6", |p| has(p, 6)),
    ("type 7 adjustable", |p| with(p, 7, FLAG_ADJUSTABLE, true)),
    ("type 7 not adjustable", |p| with(p, 7, FLAG_ADJUSTABLE, false)),
    ("type 8 with Tc", |p| with(p, 8, FLAG_TC, true)),
    ("type 8 without Tc", |p| with(p, 8, FLAG_TC, false)),
    ("Tc without type 8", |p| !has(p, 8) && p.flags & FLAG_TC != 0),
    ("no short address", |p| p.short_address == NO_SHORT_ADDRESS),
    ("short address 0", |p| p.short_address == 0),
    ("short address 63", |p| p.short_address == 63),
    ("another short address", |p| (1..63).contains(&p.short_address)),
    ("random address 0", |p| p.random_address == 0),
    ("random address 16,777,215", |p| p.random_address == 0xFF_FFFF),
    ("another random address", |p| (1..0xFF_FFFF).contains(&p.random_address)),
    ("equal limits 0", |p| (p.coolest, p.warmest) == (0, 0)),
    ("equal limits 65,534", |p| (p.coolest, p.warmest) == (65_534, 65_534)),
    ("equal limits between", |p| p.coolest == p.warmest && (1..65_534).contains(&p.coolest)),
    ("limits 0 and 65,534", |p| (p.coolest, p.warmest) == (0, 65_534)),
    ("limits that differ in the high byte", |p| p.coolest >> 8 != p.warmest >> 8),
    ("limits with the lower low byte warmest", |p| p.warmest & 255 < p.coolest & 255),
    ("physical minimum 1", |p| p.physical_minimum == 1),
    ("physical minimum 254", |p| p.physical_minimum == 254),
    ("physical minimum between", |p| (2..254).contains(&p.physical_minimum)),
];

pub struct Profiles {
    types: Grid,
    flags: Grid,
    channels: Grid,
    kinds: Grid,
}

fn up_to(last: u8, word: &str) -> Axis {
    (0..=last).map(|n| format!("{word} {n}")).collect()
}

impl Profiles {
    pub fn new() -> Self {
        let kinds: Vec<&str> = KINDS.iter().map(|(name, _)| *name).collect();
        Profiles {
            types: Grid::new("counts of types", [up_to(TYPES_MAX, "types")]),
            flags: Grid::new("flags", [up_to(31, "flags")]),
            channels: Grid::new("channels", [up_to(6, "channels")]),
            kinds: Grid::new("profiles", [names(&kinds)]),
        }
    }
}

impl Watch for Profiles {
    fn well_formed(&mut self, _file: &[u8], session: &Session) {
        let profile = &session.profile;
        self.types.hit(&[profile.type_count.into()]);
        self.flags.hit(&[profile.flags.into()]);
        self.channels.hit(&[profile.channels.into()]);
        for (place, (_, holds)) in KINDS.iter().enumerate() {
            if holds(profile) {
                self.kinds.hit(&[place]);
            }
        }
    }

    fn grids(&self) -> Vec<&Grid> {
        vec![&self.types, &self.flags, &self.channels, &self.kinds]
    }
}
