//! Random profiles: every kind of gear, and now and then one that is not accepted.

use crate::chance::Chance;
use crate::profile::{Profile, NO_SHORT_ADDRESS};

const LISTS: &[&[u8]] = &[&[], &[6], &[7], &[8], &[8], &[8], &[6, 8], &[8, 6], &[7, 8], &[6, 7], &[6, 6], &[1, 2, 3]];

pub fn accepted(chance: &mut Chance) -> Profile {
    let mut profile = Profile::of(&types(chance));
    profile.short_address = match chance.below(4) {
        0 => NO_SHORT_ADDRESS,
        1 => chance.pick(&[0, 1, 62, 63]),
        _ => chance.below(64) as u8,
    };
    profile.random_address = match chance.below(4) {
        0 => chance.pick(&[0, 1, 255, 256, 65_535, 65_536, 0xFF_FFFF]),
        _ => chance.below(1 << 24) as u32,
    };
    profile.flags = chance.below(32) as u8;
    profile.channels = chance.pick(&[0, 0, 1, 2, 3, 4, 5, 6, 6]);
    (profile.coolest, profile.warmest) = tc_limits(chance);
    profile.physical_minimum = match chance.below(4) {
        0 | 1 => 1,
        2 => chance.pick(&[2, 10, 100, 253, 254]),
        _ => 1 + chance.below(254) as u8,
    };
    profile
}

fn types(chance: &mut Chance) -> Vec<u8> {
    if chance.below(4) > 0 {
        return chance.pick(LISTS).to_vec();
    }
    let count = chance.below(14);
    (0..count).map(|_| chance.pick(&[6, 7, 8, 8, 1, 50, 0, 254, 255])).collect()
}

fn tc_limits(chance: &mut Chance) -> (u16, u16) {
    let usual = [(153, 400), (153, 400), (200, 200), (0, 65_534), (0, 0), (65_534, 65_534), (1, 2)];
    let coolest = chance.below(65_535) as u16;
    let other = (coolest, chance.between(coolest, 65_534));
    if chance.one_in(4) {
        other
    } else {
        chance.pick(&usual)
    }
}

/// Accepted, and more often of type 7 than by chance alone.
pub fn for_new_gear(chance: &mut Chance) -> Profile {
    if chance.one_in(6) {
        switching(chance)
    } else {
        accepted(chance)
    }
}

/// An accepted profile with one thing spoilt.
pub fn refused(chance: &mut Chance) -> Profile {
    let mut profile = accepted(chance);
    match chance.below(6) {
        0 => profile.type_count = chance.pick(&[14, 15, 16, 17, 255]),
        1 => profile.channels = chance.pick(&[7, 8, 255]),
        2 => profile.short_address = chance.pick(&[64, 65, 128, 254]),
        3 => profile.random_address += 1 << 24,
        4 => profile.physical_minimum = chance.pick(&[0, 255]),
        _ => (profile.coolest, profile.warmest) = chance.pick(&[(401, 400), (1, 0), (0, 65_535), (65_535, 65_535)]),
    }
    profile
}

/// A list that may be longer than a profile's: a record holds up to 16 codes.
pub fn longer_list(chance: &mut Chance) -> Vec<u8> {
    let count = chance.below(17);
    (0..count).map(|_| chance.pick(&[6, 7, 8, 8, 1, 2, 50, 254, 255])).collect()
}

/// A gear of type 7, with a minimum that may move or may not.
pub fn switching(chance: &mut Chance) -> Profile {
    let types = chance.pick(&[&[7][..], &[7, 8], &[6, 7]]);
    Profile { type_count: types.len() as u8, types: Profile::of(types).types, ..accepted(chance) }
}
