//! How a field of a draft is put out of range, and how a file is cut off.

use super::draft::Draft;
use crate::chance::Chance;
use crate::session::file::Field;

pub type Spoil = fn(&mut Draft, &mut Chance);

/// Every field that has a range of its own, in the order of the file.
pub const SPOILS: [(Field, Spoil); 8] = [
    (Field::TypeCount, type_count),
    (Field::ProfileCount, profile_count),
    (Field::ShortAddress, short_address),
    (Field::Flags, flags),
    (Field::Channels, channels),
    (Field::Warmest, warmest),
    (Field::PhysicalMinimum, physical_minimum),
    (Field::StepCount, step_count),
];

/// Every field behind this one.
pub fn behind(field: Field) -> impl Iterator<Item = Field> {
    Field::ALL.into_iter().filter(move |other| *other > field)
}

/// The ends of a range more often than what is between them.
fn of_range(chance: &mut Chance, first: u16, last: u16) -> u16 {
    let between = chance.between(first, last);
    chance.pick(&[first, last, between, between])
}

/// Sometimes there are as many types as the count says.
fn type_count(draft: &mut Draft, chance: &mut Chance) {
    draft.type_count = of_range(chance, 14, 255) as u8;
    if chance.coin() {
        draft.types.resize(draft.type_count.into(), 6);
    }
}

fn profile_count(draft: &mut Draft, chance: &mut Chance) {
    let (below, above) = (of_range(chance, 0, 10), of_range(chance, 12, 255));
    draft.profile_count = chance.pick(&[below, above]) as u8;
}

fn short_address(draft: &mut Draft, chance: &mut Chance) {
    draft.profile.short_address = of_range(chance, 64, 254) as u8;
}

fn flags(draft: &mut Draft, chance: &mut Chance) {
    let more = 32 * of_range(chance, 1, 7) as u8;
    draft.profile.flags |= chance.pick(&[32, 64, 128, more]);
}

fn channels(draft: &mut Draft, chance: &mut Chance) {
    draft.profile.channels = of_range(chance, 7, 255) as u8;
}

/// Warmest 65,535, coolest 65,535, both, or a coolest that is above warmest.
fn warmest(draft: &mut Draft, chance: &mut Chance) {
    let (coolest, warmest) = (&mut draft.profile.coolest, &mut draft.profile.warmest);
    match chance.below(6) {
        0 => *warmest = 65_535,
        1 => *coolest = 65_535,
        2 => (*coolest, *warmest) = (65_535, 65_535),
        3 => *coolest = *warmest + 1,
        4 => *coolest = chance.between(*warmest + 1, 65_535),
        _ => (*coolest, *warmest) = (256, 255),
    }
}

fn physical_minimum(draft: &mut Draft, chance: &mut Chance) {
    draft.profile.physical_minimum = chance.pick(&[0, 255]);
}

fn step_count(draft: &mut Draft, chance: &mut Chance) {
    draft.step_count = of_range(chance, 4_097, 65_535);
}

/// The file as it is up to a byte of the field, which stays incomplete; of the steps, any byte.
pub fn cut_within(draft: &Draft, field: Field, chance: &mut Chance) -> Vec<u8> {
    let mut bytes = draft.bytes();
    let end = behind(field).next().map_or(bytes.len(), |next| draft.start(next));
    let start = draft.start(field);
    bytes.truncate(start + chance.below(end - start));
    bytes
}

/// A field that is bad by its first byte already, and is cut off behind it.
pub fn cut_bad_field(draft: &mut Draft, chance: &mut Chance) -> Vec<u8> {
    let field = chance.pick(&[Field::Warmest, Field::StepCount]);
    draft.step_count = chance.between(0x1100, 0xFFFF);
    if field == Field::Warmest {
        let high = chance.between(1, 255);
        draft.profile.coolest = 256 * high + chance.between(0, 255);
        draft.profile.warmest = chance.between(0, 256 * high - 1);
    }
    let mut bytes = draft.bytes();
    bytes.truncate(draft.start(field) + 1);
    bytes
}
