//! Every colour value id on gears of each capability, with every active, staged and reported mode, and with every
//! number of channels.

use super::gears::*;
use crate::calls::*;
use crate::gear::ColorMode;
use crate::list::Recorder;
use crate::profile::{FLAG_TC, FLAG_XY};

/// Active, staged and reported, so that each mode stands once in each place at least.
const STATES: [(ColorMode, ColorMode, u8); 5] = [
    (ColorMode::None, ColorMode::None, NO_COLOUR),
    (ColorMode::Cct, ColorMode::Xy, RGBWAF),
    (ColorMode::Xy, ColorMode::Rgb, TC),
    (ColorMode::Rgb, ColorMode::Cct, XY),
    (ColorMode::Cct, ColorMode::None, OTHER_TYPES[0]),
];

pub fn record(r: &mut Recorder) {
    for flags in [0, FLAG_TC, FLAG_XY, FLAG_TC | FLAG_XY] {
        for channels in 0..=6 {
            r.call(colour(flags, channels).call());
            r.calls([store_tc_limit(0, 200), store_tc_limit(1, 350)]);
            for (place, state) in STATES.into_iter().enumerate() {
                set_state(r, state);
                let all = asks_all(channels, place);
                r.calls((0..=255).filter(|id| all || of_channels(*id)).map(colour_value));
            }
        }
    }
}

fn set_state(r: &mut Recorder, (active, staged, reported): (ColorMode, ColorMode, u8)) {
    r.call(place_active(active, &tc_of(321), true));
    r.call(place_pending(staged, &tc_of(65_000)));
    r.call(place_report(&colour_of(reported)));
}

/// No channel and three ask for every id in every state, the other numbers in one state.
fn asks_all(channels: u8, state: usize) -> bool {
    matches!(channels, 0 | 3) || usize::from(channels) % STATES.len() == state
}

/// The ids that look at the channels, and those beside them.
fn of_channels(id: u8) -> bool {
    matches!(id, 8..=16 | 200..=209 | 232..=241)
}
