//! Every byte given to the write call and to the query call, and every write with each kind of DTR0.

use super::gears::*;
use crate::call::Call;
use crate::calls::*;
use crate::gear::Gear;
use crate::list::Recorder;
use crate::profile::Profile;
use crate::tables::write_bytes;

pub fn record(r: &mut Recorder) {
    for profile in [led(), led_from(100), switching(true), switching(false), everything()] {
        settle(r, &profile);
        r.calls((0..=255).map(|byte| write(byte, 120)));
        settle(r, &profile);
        r.calls((0..=255).map(query));
    }
    for profile in [switching(true), everything()] {
        settle(r, &profile);
        write_bytes().into_iter().for_each(|byte| every_dtr0(r, byte));
    }
}

/// A gear that has been in use: limits, scenes, groups, colours, all far from fresh.
fn settle(r: &mut Recorder, profile: &Profile) {
    r.call(profile.call());
    r.calls(bounds(10, 200));
    for scene in 0..16 {
        r.call(stage(&colour_of([XY, TC, RGBWAF, NO_COLOUR][usize::from(scene % 4)])));
        r.call(write(64 + scene, scene * 17));
        r.call(write(96 + scene * 5 % 16, 0));
    }
    r.calls([stage(&tc_of(250)), arc_power(90), stage(&colour_of(XY))]);
}

/// The byte with each DTR0, each time on a level of its own and with a colour staged or not.
fn every_dtr0(r: &mut Recorder, byte: u8) {
    for n in 0..DTR0S {
        r.calls(before(r.gear(), n));
        let dtr0 = dtr0s(r.gear())[n];
        r.call(write(byte, dtr0));
        if matches!(byte, 32 | 42 | 43) {
            r.calls(bounds(10, 200));
        }
    }
}

fn before(gear: &Gear, n: usize) -> Vec<Call> {
    let level = dtr0s(gear)[n];
    let mut calls = vec![place_level(level, gear.max_level, n % 2 == 0)];
    if n % 3 == 0 {
        calls.push(stage(&colour_of([XY, TC, RGBWAF][n / 3 % 3])));
    }
    calls
}

const DTR0S: usize = 11;

/// 0, 1, 2, both limits with their neighbours, and the top.
fn dtr0s(gear: &Gear) -> [u8; DTR0S] {
    let (min, max) = (gear.min_level, gear.max_level);
    [0, 1, 2, min - 1, min, min + 1, max - 1, max, max + 1, 254, 255]
}
