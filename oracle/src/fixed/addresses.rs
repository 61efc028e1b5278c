//! Address matching: every address of every kind, for gears in and out of groups, enabled or not.

use super::gears::*;
use crate::calls::*;
use crate::kinds;
use crate::list::Recorder;
use crate::profile::{Profile, NO_SHORT_ADDRESS};

pub fn record(r: &mut Recorder) {
    for short_address in [0, 5, 63, NO_SHORT_ADDRESS] {
        r.call(Profile { short_address, ..led() }.call());
        for enabled in [true, false] {
            r.call(set_mark(kinds::SET_ENABLED, enabled));
            others(r);
            r.calls([0, 1, 4, 5, 6, 62, 63, 64, 127, 254, 255].map(|number| matches(0, number)));
        }
    }
    r.call(everything().call());
    r.calls((0..=255).map(|number| matches(0, number)));
    r.calls((0..=255).map(|number| matches(1, number)));
    (0..16).for_each(|group| membership(r, group));
    disabled(r);
}

fn others(r: &mut Recorder) {
    r.calls([matches(2, 0), matches(3, 0), matches(2, 255), matches(3, 255), matches(1, 0), matches(1, 15)]);
    r.calls([16, 17, 128, 255].map(|number| matches(1, number)));
}

/// A member of one group, asked for all; then of all the others.
fn membership(r: &mut Recorder, group: u8) {
    r.call(write(96 + group, 0));
    r.calls([query(192), query(193)]);
    r.calls((0..=16).map(|number| matches(1, number)));
    r.call(write(112 + group, 0));
    r.calls((0..16).filter(|other| *other != group).map(|other| write(96 + other, 0)));
    r.calls([query(192), query(193), matches(1, group), matches(1, (group + 1) % 16)]);
    r.calls((0..16).map(|other| write(112 + other, 0)));
}

/// A gear that is not enabled keeps its groups and matches nothing; refusal 4 stays.
fn disabled(r: &mut Recorder) {
    r.calls((0..16).map(|group| write(96 + group, 0)));
    r.call(set_mark(kinds::SET_ENABLED, false));
    r.calls((0..=18).map(|number| matches(1, number)));
    r.calls([arc_power(40), query(144), write(32, 0), matches(2, 0)]);
    r.call(set_mark(kinds::SET_ENABLED, true));
}
