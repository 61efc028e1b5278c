//! Profiles that are refused, and fresh gears of every kind of profile, each asked every query.

use super::gears::{colour, led, led_from, switching};
use crate::calls::{plain, query};
use crate::kinds;
use crate::list::Recorder;
use crate::profile::*;
use crate::tables::query_bytes;

pub fn record(r: &mut Recorder) {
    // Refused first: they leave the record that every list begins with, so that it is seen too.
    for profile in refused() {
        r.call(profile.call());
        r.call(plain(kinds::STATUS));
    }
    ask_everything(r);
    for profile in accepted() {
        r.call(profile.call());
        ask_everything(r);
    }
}

/// Every query of document 01's table, and every plain read.
fn ask_everything(r: &mut Recorder) {
    r.calls(query_bytes().into_iter().map(query));
    r.calls((kinds::COLOUR_STATUS..=kinds::AUTOMATIC_ACTIVATION).map(plain));
    r.calls((kinds::STATUS..=kinds::IS_DT8).map(plain));
}

/// Each kind, and each again with its first code standing twice.
fn accepted() -> Vec<Profile> {
    let mut all = Vec::new();
    for profile in [lists(), capabilities(), minima(), numbers(), flags()].concat() {
        all.extend(with_duplicate(&profile));
        all.push(profile);
    }
    all
}

fn with_duplicate(profile: &Profile) -> Option<Profile> {
    let codes = profile.codes();
    let longer = [codes, codes.get(..1)?].concat();
    if longer.len() > usize::from(TYPES_MAX) {
        return None;
    }
    Some(Profile { type_count: longer.len() as u8, types: Profile::of(&longer).types, ..profile.clone() })
}

fn lists() -> Vec<Profile> {
    let thirteen: Vec<u8> = (50..63).collect();
    let mixed = [6, 7, 8, 1, 2, 3, 4, 5, 9, 10, 254, 255, 0];
    let mut lists: Vec<&[u8]> = vec![&[], &[6], &[7], &[8], &[1], &[254], &[255], &[0]];
    lists.extend([&[6, 8][..], &[8, 6], &[6, 7], &[7, 8], &[1, 2], &[6, 7, 8], &[8, 7, 6, 5]]);
    lists.extend([&thirteen[..], &mixed, &[6; 13], &[7; 13], &[8; 13], &thirteen[..12]]);
    lists.into_iter().map(Profile::of).collect()
}

/// Type 8 with every set of capabilities; and capabilities at a gear that is not of type 8.
fn capabilities() -> Vec<Profile> {
    let mut all = Vec::new();
    for flags in [0, FLAG_TC, FLAG_XY, FLAG_TC | FLAG_XY] {
        all.extend((0..=6).map(|channels| colour(flags, channels)));
        all.push(Profile { flags, channels: 3, ..led() });
    }
    all
}

/// Physical minima, and type 7 gears that let their minimum move or not.
fn minima() -> Vec<Profile> {
    let mut all: Vec<Profile> = [1, 2, 100, 253, 254].map(led_from).to_vec();
    for physical_minimum in [1, 100, 254] {
        for adjustable in [false, true] {
            all.push(Profile { physical_minimum, ..switching(adjustable) });
        }
    }
    all
}

fn numbers() -> Vec<Profile> {
    let mut all = Vec::new();
    for short_address in [NO_SHORT_ADDRESS, 0, 1, 62, 63] {
        all.push(Profile { short_address, ..led() });
    }
    for random_address in [0, 1, 0xFF, 0x100, 0xFFFF, 0x1_0000, 0xAB_CDEF, 0xFF_FFFF] {
        all.push(Profile { random_address, ..led() });
    }
    for (coolest, warmest) in [(0, 0), (200, 200), (65_534, 65_534), (0, 65_534), (1, 2)] {
        all.push(Profile { coolest, warmest, ..colour(FLAG_TC, 0) });
    }
    all
}

/// Each flag alone, all together, and bits above 4, which are ignored.
fn flags() -> Vec<Profile> {
    let both = FLAG_HOLDS_DTR0 | FLAG_NO_INDICATOR;
    let sets = [FLAG_TC, FLAG_XY, FLAG_ADJUSTABLE, FLAG_HOLDS_DTR0, FLAG_NO_INDICATOR, both, 31, 0xE0, 0xFF];
    sets.map(|flags| Profile { flags, ..led() }).to_vec()
}

/// Each limit just beyond, at a gear of each type.
fn refused() -> Vec<Profile> {
    let bases = [led(), switching(true), colour(FLAG_TC | FLAG_XY, 6)];
    bases.iter().flat_map(spoilt).collect()
}

fn spoilt(base: &Profile) -> Vec<Profile> {
    let mut all = Vec::new();
    for type_count in [14, 15, 16, 17, 255] {
        all.push(Profile { type_count, ..base.clone() });
    }
    for short_address in [64, 65, 128, 254] {
        all.push(Profile { short_address, ..base.clone() });
    }
    for random_address in [0x100_0000, 0xFF00_0000, u32::MAX] {
        all.push(Profile { random_address, ..base.clone() });
    }
    for channels in [7, 8, 255] {
        all.push(Profile { channels, ..base.clone() });
    }
    for physical_minimum in [0, 255] {
        all.push(Profile { physical_minimum, ..base.clone() });
    }
    let crossed = [(401, 400), (1, 0), (65_535, 400), (65_534, 65_535), (0, 65_535), (65_535, 65_535)];
    for (coolest, warmest) in crossed {
        all.push(Profile { coolest, warmest, ..base.clone() });
    }
    all
}
