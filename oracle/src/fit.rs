//! When a record is fit, written from document 01, "Profile and fit record".

use crate::gear::{ColorMode, Gear};
use crate::profile::CODES_LEN;

pub const UNSET: u16 = 65_535;

/// The first rule that the record breaks.
pub fn unfit(gear: &Gear) -> Option<&'static str> {
    let rules = [
        (profile_is_fit(gear), "its profile would not be accepted"),
        (levels_are_fit(gear), "floor <= min <= max <= 254 does not hold"),
        (limits_are_fit(gear), "its Tc limits are out of order"),
        (colour_is_fit(gear), "its active Tc is outside the effective limits"),
        (gear.walk().is_none_or(|cursor| cursor <= 16), "its walk is above 16"),
    ];
    rules.iter().find(|(holds, _)| !holds).map(|(_, broken)| *broken)
}

fn profile_is_fit(gear: &Gear) -> bool {
    let spec = &gear.spec;
    spec.device_types.len() <= CODES_LEN
        && spec.rgbwaf_channels <= 6
        && spec.short_address.is_none_or(|short| short <= 63)
        && spec.random_address <= 16_777_215
        && (1..=254).contains(&spec.phm)
        && spec.tc_coolest_mirek <= spec.tc_warmest_mirek
        && spec.tc_warmest_mirek < UNSET
}

fn levels_are_fit(gear: &Gear) -> bool {
    floor(gear) <= gear.min_level && gear.min_level <= gear.max_level && gear.max_level <= 254
}

fn limits_are_fit(gear: &Gear) -> bool {
    let (coolest, warmest) = effective_limits(gear);
    gear.spec.tc_coolest_mirek <= coolest && coolest <= warmest && warmest <= gear.spec.tc_warmest_mirek
}

fn colour_is_fit(gear: &Gear) -> bool {
    let (coolest, warmest) = effective_limits(gear);
    gear.color_mode != ColorMode::Cct || (coolest..=warmest).contains(&gear.color_ct)
}

/// Document 01: "The floor is 1 for a type 7 gear, else the physical minimum."
pub fn floor(gear: &Gear) -> u8 {
    if gear.spec.device_types.contains(&7) {
        1
    } else {
        gear.spec.phm
    }
}

/// Document 01: "the stored limit, or the physical one where 65,535 is stored".
pub fn effective_limits(gear: &Gear) -> (u16, u16) {
    let pick = |stored, physical| if stored == UNSET { physical } else { stored };
    (pick(gear.tc_coolest_limit, gear.spec.tc_coolest_mirek), pick(gear.tc_warmest_limit, gear.spec.tc_warmest_mirek))
}
