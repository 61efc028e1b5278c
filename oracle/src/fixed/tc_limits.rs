//! Tc limit stores: every selector with every limit and its neighbours, with and without an active Tc.

use super::gears::*;
use crate::calls::*;
use crate::gear::{ColorMode, Gear};
use crate::list::Recorder;
use crate::profile::{Profile, FLAG_TC};

/// Physical and stored limits to start from; 65,535 stands for none stored.
const PAIRS: [((u16, u16), (u16, u16)); 8] = [
    ((153, 400), (153, 400)),
    ((153, 400), (200, 300)),
    ((153, 400), (65_535, 300)),
    ((153, 400), (200, 65_535)),
    ((153, 400), (65_535, 65_535)),
    ((153, 400), (250, 250)),
    ((200, 200), (200, 200)),
    ((0, 65_534), (1, 65_533)),
];

pub fn record(r: &mut Recorder) {
    for (physical, stored) in PAIRS {
        for selector in [0, 1, 2, 3] {
            for n in 0..values_count() {
                one_store(r, physical, stored, selector, n);
            }
        }
        idle_selectors(r);
    }
    long_way(r);
}

fn values_count() -> usize {
    values(&crate::profile::first_gear()).len()
}

/// 0, 1, each of the four limits and its neighbours, the active Tc, and the top.
fn values(gear: &Gear) -> Vec<u16> {
    let mut values = vec![0, 1, 65_534, 65_535, gear.color_ct, 275];
    let physical = [gear.spec.tc_coolest_mirek, gear.spec.tc_warmest_mirek];
    for limit in [physical, [gear.tc_coolest_limit, gear.tc_warmest_limit]].concat() {
        values.extend([limit.wrapping_sub(1), limit, limit.wrapping_add(1)]);
    }
    values
}

/// The same store with Tc active at each end, and with no Tc active.
fn one_store(r: &mut Recorder, physical: (u16, u16), stored: (u16, u16), selector: u8, n: usize) {
    let profile = Profile { coolest: physical.0, warmest: physical.1, ..colour(FLAG_TC, 0) };
    for place in 0..3 {
        r.call(profile.call());
        r.calls([store_tc_limit(0, stored.0), store_tc_limit(1, stored.1)]);
        let (coolest, warmest) = crate::fit::effective_limits(r.gear());
        let (mode, tc) = [(ColorMode::Cct, coolest), (ColorMode::Cct, warmest), (ColorMode::Xy, 65_000)][place];
        r.call(place_active(mode, &tc_of(tc), (n + place) % 2 == 0));
        let value = values(r.gear())[n];
        r.call(store_tc_limit(selector, value));
    }
}

/// Selectors above 3 change nothing.
fn idle_selectors(r: &mut Recorder) {
    for active in [false, true] {
        let (coolest, _) = crate::fit::effective_limits(r.gear());
        let mode = if active { ColorMode::Cct } else { ColorMode::None };
        r.call(place_active(mode, &tc_of(coolest), false));
        for selector in [4, 255] {
            let values = values(r.gear());
            r.calls(values.into_iter().map(|value| store_tc_limit(selector, value)));
        }
    }
}

/// One gear whose limits are moved again and again, with its values asked between.
fn long_way(r: &mut Recorder) {
    r.call(colour(FLAG_TC, 0).call());
    r.calls([stage(&tc_of(200)), activate()]);
    for round in 0..80u16 {
        let selector = (round % 4) as u8;
        let value = values(r.gear())[usize::from(round * 7) % values_count()];
        r.call(store_tc_limit(selector, value));
        r.calls([2, 128, 129, 130, 131].map(colour_value));
        r.calls([stage(&tc_of(round * 97)), activate(), tc_step(round % 3 == 0)]);
    }
}
