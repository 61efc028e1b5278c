//! Why a gear has no value for a colour value id (document 02, 2). The Rust says only that there is none; the table
//! here is written from the words of part 209 as they are known, without a copy of it at hand.

use crate::gear::GearSpec;

#[derive(Clone, Copy, PartialEq, Eq, Debug)]
pub enum Absence {
    /// No gear has such an id.
    UnknownId,
    /// Other gears have a value there: what this one lacks.
    NotCapable(Capability),
}

/// What a profile tells of a gear's colours, with its number in a list's answer.
#[derive(Clone, Copy, PartialEq, Eq, Debug)]
pub enum Capability {
    Xy = 1,
    Tc = 2,
    /// One channel or more.
    Channels = 3,
}

use Capability::{Channels, Tc, Xy};

/// What an id asks of a gear.
enum Need {
    Unknown,
    Nothing,
    Of(Capability),
}

use Need::{Nothing, Of, Unknown};

/// Part 209, table 11, the colour values, in its order. No profile has a capability for the dimlevels of primary N, so
/// that no gear has them. One channel is enough for all that concern channels: the others have the value 255.
fn need(id: u8) -> Need {
    match id {
        // x-coordinate, y-coordinate
        0 | 1 => Of(Xy),
        // colour temperature Tc
        2 => Of(Tc),
        // primary N dimlevel, N from 0 to 5
        3..=8 => Unknown,
        // red, green, blue, white, amber and freecolour dimlevel, RGBWAF control
        9..=15 => Of(Channels),
        // x-coordinate, y-coordinate and TY of primary N, N from 0 to 5
        64..=81 => Nothing,
        // number of primaries
        82 => Nothing,
        // colour temperature Tc coolest, Tc physical coolest, Tc warmest, Tc physical warmest
        128..=131 => Of(Tc),
        // temporary x-coordinate, temporary y-coordinate
        192 | 193 => Of(Xy),
        // temporary colour temperature Tc
        194 => Of(Tc),
        // temporary primary N dimlevel
        195..=200 => Unknown,
        // temporary red, green, blue, white, amber and freecolour dimlevel, temporary RGBWAF control
        201..=207 => Of(Channels),
        // temporary colour type
        208 => Nothing,
        // report x-coordinate, report y-coordinate
        224 | 225 => Of(Xy),
        // report colour temperature Tc
        226 => Of(Tc),
        // report primary N dimlevel
        227..=232 => Unknown,
        // report red, green, blue, white, amber and freecolour dimlevel, report RGBWAF control
        233..=239 => Of(Channels),
        // report colour type
        240 => Nothing,
        // reserved
        _ => Unknown,
    }
}

/// None where the gear has a value. The id decides first: one that is unknown is so whatever the gear is capable of.
pub fn absence(id: u8, spec: &GearSpec) -> Option<Absence> {
    match need(id) {
        Unknown => Some(Absence::UnknownId),
        Nothing => None,
        Of(capability) => (!capability.is_of(spec)).then_some(Absence::NotCapable(capability)),
    }
}

impl Capability {
    pub const ALL: [Capability; 3] = [Xy, Tc, Channels];

    pub fn number(self) -> u16 {
        self as u16
    }

    fn is_of(self, spec: &GearSpec) -> bool {
        match self {
            Xy => spec.xy_capable,
            Tc => spec.tc_capable,
            Channels => spec.rgbwaf_channels > 0,
        }
    }

    /// Makes a gear capable of it that is not.
    pub fn give(self, spec: &mut GearSpec) {
        match self {
            Xy => spec.xy_capable = true,
            Tc => spec.tc_capable = true,
            Channels => spec.rgbwaf_channels = spec.rgbwaf_channels.max(1),
        }
    }
}

/// The name of what a number stands for, also of one that a list brings along.
pub fn capability_name(number: u16) -> &'static str {
    match Capability::ALL.into_iter().find(|capability| capability.number() == number) {
        Some(Xy) => "xy",
        Some(Tc) => "Tc",
        Some(Channels) => "channels",
        None => "unknown capability",
    }
}
