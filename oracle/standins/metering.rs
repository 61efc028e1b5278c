//! Stand-in for the module `metering`: banks that cannot be built.
//!
//! Document 01, "What the record covers": "Left behind: metering, luminaire banks, ..." and "In the
//! covered domain those options are off."

/// It has no value, so every path of gear.rs that needs one is dead.
#[derive(Debug)]
pub enum MeteringBanks {}

impl MeteringBanks {
    pub fn new(_seed: u32, _energy: bool, _diagnostics: bool) -> Self {
        panic!("metering is off: no call may ask for it")
    }

    pub fn last_accessible_bank(&self, _base: u8) -> u8 {
        match *self {}
    }

    pub fn location(&self, _bank: u8, _offset: u8) -> Option<u8> {
        match *self {}
    }

    pub fn implements_bank(&self, _bank: u8) -> bool {
        match *self {}
    }
}
