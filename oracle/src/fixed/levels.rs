//! Levels: every level command at each limit and its neighbours, on gears of each floor.

use super::gears::*;
use crate::calls::*;
use crate::list::Recorder;

const LEVEL_BYTES: [u8; 10] = [0, 1, 2, 3, 4, 5, 6, 7, 8, 10];

pub fn record(r: &mut Recorder) {
    let wide = [(1, 254), (10, 200), (100, 100)];
    for (profile, bounds) in [
        (led(), &wide[..]),
        (led_from(100), &[(100, 254), (120, 200), (100, 100)]),
        (led_from(254), &[(254, 254)]),
        (switching(true), &wide),
        (switching(false), &[(254, 254)]),
    ] {
        r.call(profile.call());
        bounds.iter().for_each(|(min, max)| around(r, *min, *max));
    }
}

fn around(r: &mut Recorder, min: u8, max: u8) {
    r.calls(bounds(min, max));
    let near = beside_limits(min, max);
    let steps_below = [8, 9, max - 8, max - 7];
    for level in near.iter().chain(&steps_below) {
        for byte in LEVEL_BYTES {
            r.call(place_level(*level, level ^ 1, byte % 2 == 0));
            r.call(write(byte, 0));
        }
        r.calls([place_level(min, *level, true), write(10, 0)]);
        r.calls([place_level(min, max, level % 2 == 0), arc_power(*level)]);
    }
    for value in &near {
        for level in [0, min - 1, min, max, 255] {
            for byte in [42, 43] {
                move_limit(r, (min, max), level, byte, *value);
            }
        }
    }
}

/// One limit write from the given bounds and level.
fn move_limit(r: &mut Recorder, (min, max): (u8, u8), level: u8, byte: u8, value: u8) {
    r.calls(bounds(min, max));
    r.call(place_level(level, 7, value % 2 == 0));
    r.call(write(byte, value));
}

/// 0, the limits and their neighbours, the top; each once.
fn beside_limits(min: u8, max: u8) -> Vec<u8> {
    let mut levels = vec![0, 1, 2, 253, 254, 255];
    for limit in [min, max] {
        levels.extend([limit - 1, limit, limit + 1]);
    }
    levels.sort_unstable();
    levels.dedup();
    levels
}
