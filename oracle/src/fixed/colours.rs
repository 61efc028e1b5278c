//! Colours: staging, activation, steps, the control byte, each at its limits.

use super::gears::*;
use crate::calls::*;
use crate::gear::{ColorMode, ColourSetting};
use crate::kinds;
use crate::list::Recorder;
use crate::profile::{Profile, FLAG_TC};

pub fn record(r: &mut Recorder) {
    for profile in [everything(), led()] {
        r.call(profile.call());
        staging(r);
        activations(r);
    }
    for (coolest, warmest) in [(153, 400), (200, 200), (0, 65_534), (65_533, 65_534)] {
        r.call(Profile { coolest, warmest, ..colour(FLAG_TC, 0) }.call());
        tc_activation(r, coolest, warmest);
        tc_steps(r, coolest, warmest);
    }
    r.call(everything().call());
    xy_steps(r);
    control_bytes(r);
    features(r);
}

/// Each type byte over each staged mode, and what comes of it.
fn staging(r: &mut Recorder) {
    for pending in MODES {
        for colour_type in [NO_COLOUR, XY, TC, RGBWAF, OTHER_TYPES[0], OTHER_TYPES[1], OTHER_TYPES[2]] {
            r.call(place_pending(pending, &ColourSetting::mask()));
            r.calls([stage(&colour_of(colour_type)), colour_value(208)]);
            r.calls([place_report(&tc_of(u16::from(colour_type))), query(160), plain(kinds::COPY_REPORT)]);
        }
    }
}

/// Each staged mode over each active one, by activation and by arc power, activation on and off.
fn activations(r: &mut Recorder) {
    for pending in MODES {
        for active in MODES {
            for features in [0, 1] {
                r.call(set_features(features));
                for way in [activate(), arc_power(100), arc_power(255), write(0, 0), write(10, 0)] {
                    r.call(place_active(active, &tc_of(222), features == 0));
                    r.call(place_pending(pending, &colour_of(0)));
                    r.calls([way, plain(kinds::COLOUR_STATUS)]);
                }
            }
        }
    }
}

fn beside(limits: &[u16]) -> Vec<u16> {
    let mut values = vec![0, 1, 65_534, 65_535];
    values.extend(limits.iter().flat_map(|limit| [limit.wrapping_sub(1), *limit, limit.wrapping_add(1)]));
    values
}

/// Staged Tc at the limits: with the physical pair, with a narrower one, and with none stored.
fn tc_activation(r: &mut Recorder, coolest: u16, warmest: u16) {
    let (third, two_thirds) = (coolest + (warmest - coolest) / 3, warmest - (warmest - coolest) / 3);
    for (low, high) in
        [(coolest, warmest), (third, two_thirds), (65_535, third), (two_thirds, 65_535), (65_535, 65_535)]
    {
        r.calls([store_tc_limit(0, low), store_tc_limit(1, high)]);
        for tc in beside(&[coolest, warmest, third, two_thirds]) {
            r.calls([stage(&tc_of(tc)), activate()]);
            r.calls([plain(kinds::COLOUR_STATUS), colour_value(2)]);
        }
    }
}

/// Tc steps at the limits, and in the modes where they do nothing.
fn tc_steps(r: &mut Recorder, coolest: u16, warmest: u16) {
    r.calls([store_tc_limit(0, 65_535), store_tc_limit(1, 65_535)]);
    let next = (coolest + 1).min(warmest);
    let before = warmest.saturating_sub(1).max(coolest);
    for warmer in [false, true] {
        for tc in [coolest, next, before, warmest] {
            for mark in [false, true] {
                r.calls([place_active(ColorMode::Cct, &tc_of(tc), mark), tc_step(warmer), tc_step(warmer)]);
            }
        }
        for mode in [ColorMode::None, ColorMode::Xy, ColorMode::Rgb] {
            r.calls([place_active(mode, &tc_of(77), true), tc_step(warmer), plain(kinds::COLOUR_STATUS)]);
        }
    }
}

fn xy_steps(r: &mut Recorder) {
    for value in [0, 1, 255, 256, 257, 65_277, 65_278, 65_279, 65_280, 65_534, 65_535] {
        for (y_axis, up) in [(false, false), (false, true), (true, false), (true, true)] {
            let numbers = ColourSetting { x: value, y: !value, ..colour_of(XY) };
            r.calls([place_active(ColorMode::Xy, &numbers, true), xy_step(y_axis, up), xy_step(y_axis, up)]);
        }
    }
    for mode in [ColorMode::None, ColorMode::Cct, ColorMode::Rgb] {
        r.calls([place_active(mode, &tc_of(200), true), xy_step(false, true), xy_step(true, true)]);
    }
}

/// Every control byte, active and staged: the actual level, the report, and the unlinking.
fn control_bytes(r: &mut Recorder) {
    r.call(arc_power(77));
    for control in 0..=255 {
        let numbers = ColourSetting { control, ..colour_of(RGBWAF) };
        r.calls([place_active(ColorMode::Rgb, &numbers, false), plain(kinds::ACTUAL_LEVEL), query(160)]);
        if control % 5 == 0 {
            r.calls([stage(&colour_of([XY, TC][usize::from(control % 2)])), activate(), plain(kinds::CONTROL_BYTE)]);
            r.calls([stage(&numbers), colour_value(207), activate(), query(160)]);
        }
    }
}

fn features(r: &mut Recorder) {
    for value in [0, 1, 2, 3, 0x3E, 0x40, 0x80, 0xFE, 0xFF] {
        r.calls([set_features(value), plain(kinds::FEATURES_BYTE), plain(kinds::AUTOMATIC_ACTIVATION)]);
        r.calls([stage(&tc_of(200)), write(5, 0), plain(kinds::COLOUR_STATUS)]);
    }
}
