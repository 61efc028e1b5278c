//! Stand-in for the module `luminaire`: a bank that cannot be built.
//!
//! Document 01, "What the record covers": "Left behind: metering, luminaire banks, ..." and "In the
//! covered domain those options are off."

use dali2rust_domain::dali::banks::part251::LuminaireFormat;

/// No effect: gear.rs compares with it only where a luminaire bank is there.
pub(crate) const LUMINAIRE_FIRST_OFFSET: u8 = 0x11;

/// It has no value, so every path of gear.rs that needs one is dead.
#[derive(Debug)]
pub enum LuminaireBank {}

impl LuminaireBank {
    pub fn new(_seed: u32, format: LuminaireFormat, _tc_capable: bool) -> Self {
        match format {}
    }

    pub fn last_accessible(&self) -> u8 {
        match *self {}
    }

    pub fn location(&self, _offset: u8) -> Option<u8> {
        match *self {}
    }

    pub(crate) fn store(&mut self, _offset: u8, _value: u8) {
        match *self {}
    }
}
