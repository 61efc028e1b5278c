//! A step of a session: four bytes, and the call that it stands for.

use crate::call::Call;
use crate::calls::*;
use crate::gear::ColourSetting;
use crate::kinds;
use dali2rust_domain::dali::devices::dt8_color::COLOUR_TYPE_BYTE_TC;

pub const STEP_LEN: usize = 4;

/// Kind, a, b, c.
#[derive(Clone, Copy, PartialEq, Eq, Debug)]
pub struct Step(pub [u8; STEP_LEN]);

pub const ARC_POWER: u8 = 0;
pub const WRITE: u8 = 1;
pub const QUERY: u8 = 2;
pub const MEMORY_READ: u8 = 3;
pub const MEMORY_WRITE: u8 = 4;
pub const COLOUR_VALUE: u8 = 5;
pub const TC_LIMIT: u8 = 6;
pub const TC_STEP: u8 = 7;
pub const STAGE_TC: u8 = 8;
pub const ACTIVATE: u8 = 9;
pub const POWER_CYCLE: u8 = 10;
pub const COPY_REPORT: u8 = 11;
pub const FEATURES: u8 = 12;

pub const LISTED_KINDS: usize = 13;

impl Step {
    pub fn kind(self) -> u8 {
        self.0[0]
    }

    /// None is a kind that document 01 does not list.
    pub fn call(self) -> Option<Call> {
        let [kind, a, b, c] = self.0;
        let word = u16::from_be_bytes([b, c]);
        Some(match kind {
            ARC_POWER => arc_power(a),
            WRITE => write(a, b),
            QUERY => query(a),
            MEMORY_READ => memory_read(a, b),
            MEMORY_WRITE => memory_write(a, b, c),
            COLOUR_VALUE => colour_value(a),
            TC_LIMIT => store_tc_limit(a, word),
            TC_STEP => tc_step(a != 0),
            STAGE_TC => stage(&tc_setting(word)),
            ACTIVATE => activate(),
            POWER_CYCLE => plain(kinds::POWER_CYCLE),
            COPY_REPORT => plain(kinds::COPY_REPORT),
            FEATURES => set_features(a),
            _ => return None,
        })
    }
}

/// A Tc to be staged. The other numbers of a setting of this type are never looked at.
fn tc_setting(tc: u16) -> ColourSetting {
    ColourSetting { tc, colour_type: COLOUR_TYPE_BYTE_TC, ..ColourSetting::mask() }
}
