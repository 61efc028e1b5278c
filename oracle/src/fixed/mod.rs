//! The fixed list: section after section, each over one part of what the record covers.

mod addresses;
mod banks;
mod bytes;
mod colours;
mod gears;
mod levels;
mod pairs;
mod power;
mod profiles;
mod runs;
mod scenes;
mod tc_limits;
mod values;
mod walks;

use crate::list::Recorder;

/// What a section does to the list.
type Section = fn(&mut Recorder);

const SECTIONS: &[(&str, Section)] = &[
    ("profiles", profiles::record),
    ("command bytes", bytes::record),
    ("levels", levels::record),
    ("scenes and stored levels", scenes::record),
    ("colours", colours::record),
    ("colour values", values::record),
    ("Tc limits", tc_limits::record),
    ("banks", banks::record),
    ("type walks", walks::record),
    ("pairs", pairs::record),
    ("addresses", addresses::record),
    ("power, lamp and faults", power::record),
    ("random runs", runs::record),
];

pub fn fixed() -> Vec<u8> {
    let mut recorder = Recorder::new();
    for (_, section) in SECTIONS {
        section(&mut recorder);
    }
    recorder.entries
}

/// For each section its name and how many calls it has.
pub fn sections() -> Vec<(&'static str, u64)> {
    let mut recorder = Recorder::new();
    let count = |(name, section): &(&'static str, Section)| {
        let before = recorder.run.number;
        section(&mut recorder);
        (*name, recorder.run.number - before)
    };
    SECTIONS.iter().map(count).collect()
}
