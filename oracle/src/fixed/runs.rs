//! Random runs from fixed seeds: long ones on one gear of each kind, then some with everything.

use super::gears::*;
use crate::list::Recorder;
use crate::profile::{Profile, FLAG_TC, FLAG_XY};
use crate::random::Generator;

const CALLS_ON_ONE_GEAR: usize = 1_350;
const LONGEST_RUN: usize = 4_000;
const CALLS_ON_MANY: usize = 6_000;

pub fn record(r: &mut Recorder) {
    let thirteen = [8, 6, 1, 2, 3, 4, 5, 9, 10, 50, 51, 52, 8];
    let gears = [
        led(),
        led_from(100),
        switching(true),
        switching(false),
        colour(FLAG_TC, 0),
        colour(FLAG_XY, 0),
        colour(0, 3),
        Profile { flags: 31, channels: 5, ..Profile::of(&thirteen) },
    ];
    for (seed, profile) in (1..).zip(gears) {
        r.call(profile.call());
        ongoing(r, seed, CALLS_ON_ONE_GEAR);
    }
    r.call(everything().call());
    ongoing(r, 100, LONGEST_RUN);
    let mut generator = Generator::new(200);
    for _ in 0..CALLS_ON_MANY {
        r.call(generator.next(r.gear()));
    }
}

fn ongoing(r: &mut Recorder, seed: u64, calls: usize) {
    let mut generator = Generator::ongoing(seed);
    for _ in 0..calls {
        r.call(generator.next(r.gear()));
    }
}
