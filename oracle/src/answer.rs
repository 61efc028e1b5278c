//! The answer to a call, and its four bytes in a list.

use crate::absent::{capability_name, Absence, Capability};
use crate::kinds::Outcome;

pub const ANSWER_LEN: usize = 4;

#[derive(Clone, Copy, PartialEq, Eq, Debug)]
pub enum Answer {
    Done,
    Value(u16),
    Bool(bool),
    None,
    Refused(u8),
    /// A colour value that other gears have: what this one lacks.
    NotCapable(Capability),
}

/// Document 01, "Numbers given back on refusal".
pub const PROFILE_NOT_ACCEPTED: Answer = Answer::Refused(1);
pub const BYTE_NOT_IN_TABLE: Answer = Answer::Refused(3);
pub const STEP_KIND_NOT_LISTED: Answer = Answer::Refused(3);
pub const GROUP_ABOVE_15: Answer = Answer::Refused(4);

impl Answer {
    /// Tag, value in two bytes, 0.
    pub fn bytes(self) -> [u8; ANSWER_LEN] {
        let (tag, value) = match self {
            Answer::Done => (0, 0),
            Answer::Value(value) => (1, value),
            Answer::Bool(value) => (1, value.into()),
            Answer::None => (2, 0),
            Answer::Refused(number) => (3, number.into()),
            Answer::NotCapable(lacking) => (4, lacking.number()),
        };
        let [high, low] = value.to_be_bytes();
        [tag, high, low, 0]
    }

    pub fn of_byte(value: Option<u8>) -> Self {
        value.map_or(Answer::None, |byte| Answer::Value(byte.into()))
    }

    /// Document 02, 2: an unknown id is still none.
    pub fn of_absence(absence: Absence) -> Self {
        match absence {
            Absence::UnknownId => Answer::None,
            Absence::NotCapable(lacking) => Answer::NotCapable(lacking),
        }
    }

    pub fn outcome(self) -> Outcome {
        match self {
            Answer::Done => Outcome::Done,
            Answer::Value(_) => Outcome::Value,
            Answer::Bool(false) => Outcome::No,
            Answer::Bool(true) => Outcome::Yes,
            Answer::None => Outcome::None,
            Answer::Refused(_) => Outcome::Refused,
            Answer::NotCapable(_) => Outcome::NotCapable,
        }
    }
}

impl std::fmt::Display for Answer {
    fn fmt(&self, f: &mut std::fmt::Formatter) -> std::fmt::Result {
        write_bytes(f, self.bytes())
    }
}

/// The words for four answer bytes, also for those that a list brings along.
pub fn write_bytes(f: &mut impl std::fmt::Write, bytes: [u8; ANSWER_LEN]) -> std::fmt::Result {
    let value = u16::from_be_bytes([bytes[1], bytes[2]]);
    match bytes[0] {
        0 => write!(f, "done"),
        1 => write!(f, "value {value}"),
        2 => write!(f, "none"),
        3 => write!(f, "refused {value}"),
        4 => write!(f, "not capable {value} ({})", capability_name(value)),
        tag => write!(f, "unknown tag {tag}"),
    }
}
