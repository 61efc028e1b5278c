//! Scenes and stored levels: colours kept with them, recalled with activation on and off, reported.

use super::gears::*;
use crate::calls::*;
use crate::gear::{ColorMode, ColourSetting};
use crate::kinds;
use crate::list::Recorder;
use crate::profile::{FLAG_TC, FLAG_XY};

pub fn record(r: &mut Recorder) {
    for profile in [everything(), led(), colour(FLAG_TC, 0)] {
        r.call(profile.call());
        r.calls(bounds(10, 200));
        (0..16).for_each(|scene| store_and_report(r, scene));
        [44, 45].iter().for_each(|byte| keep_colour(r, *byte));
    }
    r.call(colour(FLAG_TC | FLAG_XY, 4).call());
    r.calls(bounds(10, 200));
    for colour_type in [NO_COLOUR, XY, TC, RGBWAF, OTHER_TYPES[0], OTHER_TYPES[1]] {
        for pending in MODES {
            recalls(r, colour_type, pending);
        }
    }
    edges_of_recall(r);
}

/// A scene of every colour type, stored, asked for, copied back, activated and removed.
fn store_and_report(r: &mut Recorder, scene: u8) {
    for colour_type in [XY, TC, RGBWAF, NO_COLOUR] {
        r.call(stage(&colour_of(colour_type)));
        r.call(write(64 + scene, scene * 17));
        r.calls([query(176 + scene), plain(kinds::COPY_REPORT), activate(), write(16 + scene, 0)]);
    }
    r.calls([write(80 + scene, 0), query(176 + scene), write(16 + scene, 0)]);
}

/// SetSystemFailureLevel or SetPowerOnLevel with each staged colour, then its report.
fn keep_colour(r: &mut Recorder, byte: u8) {
    for colour_type in [NO_COLOUR, XY, TC, RGBWAF] {
        for level in [0, 9, 200, 255] {
            r.calls([stage(&colour_of(colour_type)), write(byte, level)]);
            r.calls([query(208 - byte), plain(kinds::COPY_REPORT), activate(), query(160)]);
        }
    }
}

/// GoToScene of scene 3 with this colour, for each level in it, activation on and off.
fn recalls(r: &mut Recorder, colour_type: u8, pending: ColorMode) {
    for features in [1, 0, 0xFE, 0xFF] {
        for level in [255, 0, 5, 100] {
            r.calls([place_pending(ColorMode::None, &colour_of(0)), write(67, level)]);
            r.call(place_scene_colour(3, &colour_of(colour_type)));
            r.calls([set_features(features), place_level(50, 60, true)]);
            r.calls([place_pending(pending, &colour_of(0)), write(19, 0)]);
        }
    }
}

/// Numbers in a scene's colour that only placing can put there.
fn edges_of_recall(r: &mut Recorder) {
    for features in [0, 1] {
        r.call(set_features(features));
        for tc in [0, 1, 152, 153, 154, 399, 400, 401, 65_534, 65_535] {
            r.calls([place_scene_colour(15, &tc_of(tc)), write(31, 0)]);
        }
        for control in [0x00, 0x3F, 0x40, 0x80, 0xC0, 0xFF] {
            let colour = ColourSetting { control, ..colour_of(RGBWAF) };
            r.calls([place_scene_colour(0, &colour), write(16, 0), query(160)]);
        }
    }
}
