//! The kinds of calls: for each its number, its name, its arguments and the answers it can give.

/// How an argument or a field of the record is written.
#[derive(Clone, Copy, PartialEq)]
pub enum Form {
    Byte,
    Flag,
    Word,
    /// Three or four bytes that are one number.
    Number(usize),
    Bytes(usize),
    Setting,
}

impl Form {
    pub const fn len(self) -> usize {
        match self {
            Form::Byte | Form::Flag => 1,
            Form::Word => 2,
            Form::Number(n) | Form::Bytes(n) => n,
            Form::Setting => crate::call::SETTING_LEN,
        }
    }
}

/// The answers of a kind; a bool is `No` or `Yes`.
#[derive(Clone, Copy, PartialEq, Eq, Debug)]
pub enum Outcome {
    Done,
    Value,
    No,
    Yes,
    None,
    Refused,
    NotCapable,
}

pub type Arguments = &'static [(&'static str, Form)];

pub struct Kind {
    pub number: u8,
    pub name: &'static str,
    pub arguments: Arguments,
    pub outcomes: &'static [Outcome],
}

pub const NEW: u8 = 0;
pub const WRITE: u8 = 1;
pub const ARC_POWER: u8 = 2;
pub const QUERY: u8 = 3;
pub const TC_STEP: u8 = 4;
pub const XY_STEP: u8 = 5;
pub const STORE_TC_LIMIT: u8 = 6;
pub const STAGE: u8 = 7;
pub const ACTIVATE: u8 = 8;
pub const COLOUR_VALUE: u8 = 9;
pub const COPY_REPORT: u8 = 10;
pub const COLOUR_STATUS: u8 = 11;
pub const COLOUR_FEATURES: u8 = 12;
pub const CONTROL_BYTE: u8 = 13;
pub const FEATURES_BYTE: u8 = 14;
pub const AUTOMATIC_ACTIVATION: u8 = 15;
pub const SET_FEATURES: u8 = 16;
pub const MEMORY_READ: u8 = 17;
pub const MEMORY_WRITE: u8 = 18;
pub const ADVANCES: u8 = 19;
pub const IMPLEMENTS: u8 = 20;
pub const SET_LOCK: u8 = 21;
pub const SET_BANK1: u8 = 22;
pub const SET_UNIT: u8 = 23;
pub const SET_LAST_OFFSET: u8 = 24;
pub const CLEAR_IDENTIFICATION: u8 = 25;
pub const HEAR: u8 = 26;
pub const HOLDS: u8 = 27;
pub const HEAR_ELSEWHERE: u8 = 28;
pub const MATCHES: u8 = 29;
pub const POWER_CYCLE: u8 = 30;
pub const SET_ENABLED: u8 = 31;
pub const SET_LAMP_FAILURE: u8 = 32;
pub const SET_LAMP_STARTING: u8 = 33;
pub const SET_FAULTS: u8 = 34;
pub const STATUS: u8 = 35;
pub const LAMP_ON: u8 = 36;
pub const FAILURE_BITS: u8 = 37;
pub const THERMAL: u8 = 38;
pub const LAMP_FAILURE_207: u8 = 39;
pub const ACTUAL_LEVEL: u8 = 40;
pub const IS_DT6: u8 = 41;
pub const IS_DT7: u8 = 42;
pub const IS_DT8: u8 = 43;
pub const PLACE_LEVEL: u8 = 64;
pub const PLACE_WALK: u8 = 65;
pub const PLACE_ADDRESSING: u8 = 66;
pub const PLACE_SCENE_COLOUR: u8 = 67;
pub const PLACE_REPORT: u8 = 68;
pub const PLACE_POWER_ON: u8 = 69;
pub const PLACE_SYSTEM_FAILURE: u8 = 70;
pub const PLACE_ACTIVE: u8 = 71;
pub const PLACE_PENDING: u8 = 72;
pub const PLACE_TYPES: u8 = 73;
pub const PLACE_BANK_BYTE: u8 = 74;
pub const PLACE_MARKS: u8 = 75;

use Form::{Byte, Bytes, Flag, Number, Setting, Word};
use Outcome::{Done, No, NotCapable, Refused, Value, Yes};

const NOTHING: Arguments = &[];
const BANK_AND_OFFSET: Arguments = &[("bank", Byte), ("offset", Byte)];
const LEVEL_AND_COLOUR: Arguments = &[("level", Byte), ("colour", Setting)];
const PROFILE: Arguments = &[
    ("type count", Byte),
    ("types", Bytes(16)),
    ("short address", Byte),
    ("random address", Number(4)),
    ("flags", Byte),
    ("channels", Byte),
    ("coolest", Word),
    ("warmest", Word),
    ("physical minimum", Byte),
];
const FAULTS: Arguments = &[
    ("drop_answer_permille", Word),
    ("forced_status", Byte),
    ("failure_status", Byte),
    ("memory_write_unstored", Flag),
    ("memory_write_holds_dtr0", Flag),
];
const ACTIVE: Arguments = &[
    ("mode", Byte),
    ("x", Word),
    ("y", Word),
    ("tc", Word),
    ("out of range", Flag),
    ("levels", Bytes(6)),
    ("control", Byte),
];
const PENDING: Arguments =
    &[("mode", Byte), ("x", Word), ("y", Word), ("tc", Word), ("levels", Bytes(6)), ("control", Byte)];
const MARKS: Arguments =
    &[("reset_state", Flag), ("power_cycle_seen", Flag), ("identifying", Flag), ("write_enabled", Flag)];
const ADDRESSING: Arguments = &[("initialise", Flag), ("withdrawn", Flag), ("dimming_curve", Byte)];

const DONE: &[Outcome] = &[Done];
const VALUE: &[Outcome] = &[Value];
const BOOL: &[Outcome] = &[No, Yes];
const OPTIONAL: &[Outcome] = &[Value, Outcome::None];
const DONE_OR_REFUSED: &[Outcome] = &[Done, Refused];

const fn kind(number: u8, name: &'static str, arguments: Arguments, outcomes: &'static [Outcome]) -> Kind {
    Kind { number, name, arguments, outcomes }
}

pub const KINDS: &[Kind] = &[
    kind(NEW, "new", PROFILE, DONE_OR_REFUSED),
    kind(WRITE, "write", &[("byte", Byte), ("DTR0", Byte)], DONE_OR_REFUSED),
    kind(ARC_POWER, "arc power", &[("level", Byte)], DONE),
    kind(QUERY, "query", &[("byte", Byte)], &[Value, Outcome::None, Refused]),
    kind(TC_STEP, "tc_step", &[("warmer", Flag)], DONE),
    kind(XY_STEP, "xy_step", &[("y axis", Flag), ("up", Flag)], DONE),
    kind(STORE_TC_LIMIT, "store_tc_limit", &[("selector", Byte), ("value", Word)], DONE),
    kind(STAGE, "stage", &[("colour", Setting)], DONE),
    kind(ACTIVATE, "activate_pending_color", NOTHING, DONE),
    kind(COLOUR_VALUE, "color_value", &[("id", Byte)], &[Value, Outcome::None, NotCapable]),
    kind(COPY_REPORT, "copy_report_to_temporary", NOTHING, DONE),
    kind(COLOUR_STATUS, "dt8_colour_status", NOTHING, VALUE),
    kind(COLOUR_FEATURES, "dt8_features", NOTHING, VALUE),
    kind(CONTROL_BYTE, "rgbwaf_control_byte", NOTHING, OPTIONAL),
    kind(FEATURES_BYTE, "gear_features_byte", NOTHING, VALUE),
    kind(AUTOMATIC_ACTIVATION, "automatic_activation", NOTHING, BOOL),
    kind(SET_FEATURES, "set gear_features", &[("value", Byte)], DONE),
    kind(MEMORY_READ, "memory_location", BANK_AND_OFFSET, OPTIONAL),
    kind(MEMORY_WRITE, "write_memory_location", &[("bank", Byte), ("offset", Byte), ("value", Byte)], OPTIONAL),
    kind(ADVANCES, "advances_dtr0_past", BANK_AND_OFFSET, BOOL),
    kind(IMPLEMENTS, "implements_bank", &[("bank", Byte)], BOOL),
    kind(SET_LOCK, "set_bank1_lock_byte", &[("value", Byte)], DONE),
    kind(SET_BANK1, "set_bank1_location", &[("offset", Byte), ("value", Byte)], DONE),
    kind(SET_UNIT, "set_logical_gear_unit", &[("units", Byte), ("index", Byte)], DONE),
    kind(SET_LAST_OFFSET, "set_bank0_last_offset", &[("last", Byte)], DONE),
    kind(CLEAR_IDENTIFICATION, "clear_identification_number", NOTHING, DONE),
    kind(HEAR, "hear", &[("frame", Word), ("repeats", Flag)], VALUE),
    kind(HOLDS, "holds", &[("frame", Word)], BOOL),
    kind(HEAR_ELSEWHERE, "hear_elsewhere", NOTHING, BOOL),
    kind(MATCHES, "matches", &[("address kind", Byte), ("number", Byte)], &[No, Yes, Refused]),
    kind(POWER_CYCLE, "power_cycle", NOTHING, DONE),
    kind(SET_ENABLED, "set enabled", &[("value", Flag)], DONE),
    kind(SET_LAMP_FAILURE, "set lamp_failure", &[("value", Flag)], DONE),
    kind(SET_LAMP_STARTING, "set lamp_starting", &[("value", Flag)], DONE),
    kind(SET_FAULTS, "set faults", FAULTS, DONE),
    kind(STATUS, "status_byte", NOTHING, VALUE),
    kind(LAMP_ON, "lamp_on", NOTHING, BOOL),
    kind(FAILURE_BITS, "failure_bits", NOTHING, VALUE),
    kind(THERMAL, "thermal_shut_down", NOTHING, BOOL),
    kind(LAMP_FAILURE_207, "lamp_failure_from_207", NOTHING, BOOL),
    kind(ACTUAL_LEVEL, "actual_level_answer", NOTHING, VALUE),
    kind(IS_DT6, "is_dt6", NOTHING, BOOL),
    kind(IS_DT7, "is_dt7", NOTHING, BOOL),
    kind(IS_DT8, "is_dt8", NOTHING, BOOL),
    kind(PLACE_LEVEL, "place level", &[("level", Byte), ("last_active_level", Byte), ("limit_error", Flag)], DONE),
    kind(PLACE_WALK, "place walk", &[("cursor", Byte)], DONE),
    kind(PLACE_ADDRESSING, "place addressing marks", ADDRESSING, DONE),
    kind(PLACE_SCENE_COLOUR, "place scene colour", &[("scene", Byte), ("colour", Setting)], DONE),
    kind(PLACE_REPORT, "place report", &[("colour", Setting)], DONE),
    kind(PLACE_POWER_ON, "place power_on", LEVEL_AND_COLOUR, DONE),
    kind(PLACE_SYSTEM_FAILURE, "place system_failure", LEVEL_AND_COLOUR, DONE),
    kind(PLACE_ACTIVE, "place active colour", ACTIVE, DONE),
    kind(PLACE_PENDING, "place pending colour", PENDING, DONE),
    kind(PLACE_TYPES, "place device types", &[("type count", Byte), ("types", Bytes(16))], DONE),
    kind(PLACE_BANK_BYTE, "place bank byte", &[("bank", Byte), ("offset", Byte), ("value", Byte)], DONE),
    kind(PLACE_MARKS, "place marks", MARKS, DONE),
];

pub fn find(number: u8) -> Option<&'static Kind> {
    KINDS.iter().find(|kind| kind.number == number)
}

pub fn name(number: u8) -> &'static str {
    find(number).map_or("unknown kind", |kind| kind.name)
}

pub fn is_placing(number: u8) -> bool {
    number >= PLACE_LEVEL
}
