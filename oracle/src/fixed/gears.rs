//! The gears and colours that the sections begin with.

use crate::call::Call;
use crate::calls::write;
use crate::gear::{ColorMode, ColourSetting};
use crate::profile::{Profile, FLAG_ADJUSTABLE, FLAG_TC, FLAG_XY};

pub const NO_COLOUR: u8 = 0xFF;
pub const XY: u8 = 0x10;
pub const TC: u8 = 0x20;
pub const RGBWAF: u8 = 0x80;
/// Type bytes of part 209 and beyond that the Rust takes for none of the four.
pub const OTHER_TYPES: [u8; 3] = [0x40, 0x00, 0xFE];

pub const MODES: [ColorMode; 4] = [ColorMode::None, ColorMode::Cct, ColorMode::Xy, ColorMode::Rgb];

pub fn led() -> Profile {
    Profile::of(&[6])
}

pub fn led_from(physical_minimum: u8) -> Profile {
    Profile { physical_minimum, ..led() }
}

/// Part 208's physical minimum is 254.
pub fn switching(adjustable: bool) -> Profile {
    let flags = if adjustable { FLAG_ADJUSTABLE } else { 0 };
    Profile { flags, physical_minimum: 254, ..Profile::of(&[7]) }
}

pub fn colour(flags: u8, channels: u8) -> Profile {
    Profile { flags, channels, ..Profile::of(&[8]) }
}

/// Tc, xy and six channels, of types 6 and 8.
pub fn everything() -> Profile {
    Profile { flags: FLAG_TC | FLAG_XY, channels: 6, ..Profile::of(&[6, 8]) }
}

/// A colour of a type, with a number of its own in every place.
pub fn colour_of(colour_type: u8) -> ColourSetting {
    ColourSetting { colour_type, x: 0x1234, y: 0x5678, tc: 300, levels: [11, 22, 33, 44, 55, 66], control: 0x85 }
}

pub fn tc_of(tc: u16) -> ColourSetting {
    ColourSetting { tc, ..colour_of(TC) }
}

/// Sets the level limits: min to the floor first, so that max is free.
pub fn bounds(min: u8, max: u8) -> [Call; 3] {
    [write(43, 0), write(42, max), write(43, min)]
}
