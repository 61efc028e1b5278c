//! Power cycles, resets, lamp marks and faults, on gears that have been in use.

use super::gears::*;
use crate::calls::*;
use crate::kinds;
use crate::list::Recorder;
use crate::profile::Profile;

pub fn record(r: &mut Recorder) {
    for profile in [led(), switching(true), switching(false), everything()] {
        for level in [0, 1, 9, 10, 11, 199, 200, 201, 254, 255] {
            use_gear(r, &profile, level);
            r.call(plain(kinds::POWER_CYCLE));
            r.calls([query(160), query(144), query(155), query(167), arc_power(50), query(155)]);
            r.calls([1, 3, 4, 7, 8, 5].map(|byte| write(byte, 0)));
        }
        use_gear(r, &profile, 77);
        r.calls([write(32, 0), query(144), query(160), plain(kinds::POWER_CYCLE), query(149)]);
    }
    for profile in [led(), colour(0, 0), everything()] {
        r.call(profile.call());
        lamp(r);
        faults(r);
    }
    marks(r);
}

/// Far from fresh in every part that a power cycle or a reset touches or keeps.
fn use_gear(r: &mut Recorder, profile: &Profile, power_on: u8) {
    r.call(profile.call());
    r.calls(bounds(10, 200));
    r.calls([stage(&tc_of(200)), write(45, power_on), stage(&colour_of(XY)), write(44, 33)]);
    r.calls([stage(&colour_of(RGBWAF)), activate(), query(160), stage(&tc_of(390))]);
    r.calls([arc_power(150), stage(&colour_of(RGBWAF)), write(46, 3), write(47, 5), write(48, 0x4F)]);
    r.calls([write(98, 0), write(37, 0), write(129, 0), set_features(0xF0), place_walk(1)]);
    r.calls([hear(0x0B2A, true), place_addressing(true, true, 1), place_marks([false, false, true, true])]);
    r.calls([set_faults(1, 2, 3, true, true), place_level(255, 9, true)]);
    r.calls([set_mark(kinds::SET_LAMP_FAILURE, true), set_mark(kinds::SET_LAMP_STARTING, true)]);
}

/// The lamp marks at levels 0 and above, with every read that looks at them.
fn lamp(r: &mut Recorder) {
    for level in [0, 1, 254, 255] {
        for (failure, starting) in [(false, false), (false, true), (true, false), (true, true)] {
            r.call(place_level(level, 254, starting));
            r.call(set_mark(kinds::SET_LAMP_FAILURE, failure));
            r.call(set_mark(kinds::SET_LAMP_STARTING, starting));
            r.calls([144, 146, 147, 148, 160, 170].map(query));
            r.calls((kinds::STATUS..=kinds::ACTUAL_LEVEL).map(plain));
        }
    }
    r.call(set_mark(kinds::SET_LAMP_FAILURE, false));
    r.call(set_mark(kinds::SET_LAMP_STARTING, false));
}

/// Each failure bit and each forced status bit, with every read that looks at them.
fn faults(r: &mut Recorder) {
    let bits = (0..8).map(|bit| 1 << bit).chain([0, 0xFF, 0x60, 0x1F]);
    for value in bits {
        for (forced, failure) in [(value, 0), (0, value), (value, value)] {
            r.calls([set_faults(500, forced, failure, false, false), arc_power(99)]);
            r.calls([144, 146, 147, 160, 170].map(query));
            r.calls((kinds::STATUS..=kinds::ACTUAL_LEVEL).map(plain));
        }
    }
    r.calls([0, 1, 999, 1000, 65_535].map(|permille| set_faults(permille, 0, 0, true, true)));
    r.call(write(32, 0));
}

/// Marks that writes set and clear: identify, write enable, reset state, power cycle seen.
fn marks(r: &mut Recorder) {
    for set in [false, true] {
        for byte in [0, 5, 6, 10, 16, 32, 37, 42, 44, 46, 48, 64, 80, 96, 112, 129] {
            r.calls([place_marks([set; 4]), write(byte, 255), query(149), query(155)]);
        }
        r.calls([place_marks([set; 4]), arc_power(255), place_marks([set; 4]), query(160), query(153)]);
        for value in [0, 15, 16, 0x4F, 0x50, 0xFF] {
            r.calls([write(46, value), write(47, value), write(48, value), query(165), query(168)]);
        }
    }
}
