//! The mixes: session files of 4,096 steps, always the same bytes.

use crate::chance::Chance;
use crate::profile::{Profile, FLAG_TC, FLAG_XY};
use crate::session::file::{read, PROFILE_COUNT};
use crate::session::step::*;
use crate::sessions::Generator;
use dali2rust_domain::dali::pres::standard::StandardCommand;

const STEPS: usize = 4_096;

type Files = Vec<Vec<u8>>;

pub const MIXES: &[(&str, fn() -> Files)] = &[
    ("power", || vec![file(1, power)]),
    ("queries", || vec![file(2, queries)]),
    ("colour", || vec![file(3, colour)]),
    ("memory", || vec![file(4, memory)]),
    ("generator", generator),
];

/// The mix of a name. Four numbers, as in '0,128,0,0', name a session of equal steps: kind, a, b and c.
pub fn named(name: &str) -> Option<Files> {
    if let Some((_, make)) = MIXES.iter().find(|mix| mix.0 == name) {
        return Some(make());
    }
    let numbers: Option<Vec<u8>> = name.split(',').map(|word| word.parse().ok()).collect();
    let step: [u8; STEP_LEN] = numbers?.try_into().ok()?;
    Some(vec![file(0, |_| step)])
}

/// How many of the generator's files go into its mix: each has a profile of its own.
const GENERATED: usize = 8;

/// The first files of the generator, from seed 1, that are well formed and have all the steps.
fn generator() -> Files {
    let mut generator = Generator::new(1);
    let files = std::iter::repeat_with(|| generator.next_file());
    let longest = |file: &Vec<u8>| read(file).is_ok_and(|session| session.steps.len() == STEPS);
    files.filter(longest).take(GENERATED).collect()
}

/// A lamp of types 6 and 8 with every capability, and steps drawn one by one.
fn file(seed: u64, step: impl Fn(&mut Chance) -> [u8; STEP_LEN]) -> Vec<u8> {
    let mut chance = Chance::new(seed);
    let profile = Profile { flags: FLAG_TC | FLAG_XY, channels: 4, ..Profile::of(&[6, 8]) };
    let mut bytes = vec![profile.type_count];
    bytes.extend(profile.codes());
    bytes.extend([PROFILE_COUNT, profile.short_address]);
    bytes.extend(&profile.random_address.to_be_bytes()[1..]);
    bytes.extend([profile.flags, profile.channels]);
    bytes.extend(profile.coolest.to_be_bytes());
    bytes.extend(profile.warmest.to_be_bytes());
    bytes.push(profile.physical_minimum);
    bytes.extend((STEPS as u16).to_be_bytes());
    (0..STEPS).for_each(|_| bytes.extend(step(&mut chance)));
    bytes
}

/// Arc power, scenes recalled, stored and removed, and the other commands that move the level.
fn power(chance: &mut Chance) -> [u8; STEP_LEN] {
    let (scene, level) = (chance.below(16) as u8, chance.byte());
    match chance.below(20) {
        0..=7 => [ARC_POWER, level, 0, 0],
        8..=11 => [WRITE, 16 + scene, 0, 0],
        12..=14 => [WRITE, 64 + scene, level, 0],
        15 => [WRITE, 80 + scene, 0, 0],
        _ => [WRITE, chance.pick(&[0, 1, 2, 3, 4, 5, 6, 7, 8, 10]), 0, 0],
    }
}

/// Every query of the table, each as often as any other.
fn queries(chance: &mut Chance) -> [u8; STEP_LEN] {
    loop {
        let byte = chance.byte();
        if StandardCommand::query(byte).is_some() {
            return [QUERY, byte, 0, 0];
        }
    }
}

/// Colour temperatures staged, activated, stepped and asked for, and limits that move over them.
fn colour(chance: &mut Chance) -> [u8; STEP_LEN] {
    let [high, low] = chance.between(100, 450).to_be_bytes();
    match chance.below(20) {
        0..=4 => [STAGE_TC, 0, high, low],
        5..=8 => [ACTIVATE, 0, 0, 0],
        9..=11 => [TC_STEP, chance.below(2) as u8, 0, 0],
        12..=14 => [TC_LIMIT, chance.below(4) as u8, high, low],
        15..=18 => [COLOUR_VALUE, chance.pick(&[2, 15, 128, 129, 130, 131, 194, 208, 226, 240]), 0, 0],
        _ => [COPY_REPORT, 0, 0, 0],
    }
}

/// Both banks read, bank 1 written, now and then its lock byte.
fn memory(chance: &mut Chance) -> [u8; STEP_LEN] {
    let (bank, offset) = (chance.below(2) as u8, chance.below(32) as u8);
    match chance.below(20) {
        0..=10 => [MEMORY_READ, bank, offset, 0],
        11..=18 => [MEMORY_WRITE, 1, offset, chance.byte()],
        _ => [MEMORY_WRITE, 1, 2, chance.pick(&[0x55, 0x55, 0x55, 0])],
    }
}
