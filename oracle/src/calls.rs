//! One short function for each kind of call, so that a list can be written down in words.

use crate::call::{high, low, Call};
use crate::gear::{ColorMode, ColourSetting};
use crate::kinds;

pub fn write(byte: u8, dtr0: u8) -> Call {
    Call::new(kinds::WRITE, &[byte, dtr0])
}

pub fn arc_power(level: u8) -> Call {
    Call::new(kinds::ARC_POWER, &[level])
}

pub fn query(byte: u8) -> Call {
    Call::new(kinds::QUERY, &[byte])
}

pub fn tc_step(warmer: bool) -> Call {
    Call::new(kinds::TC_STEP, &[warmer.into()])
}

pub fn xy_step(y_axis: bool, up: bool) -> Call {
    Call::new(kinds::XY_STEP, &[y_axis.into(), up.into()])
}

pub fn store_tc_limit(selector: u8, value: u16) -> Call {
    Call::new(kinds::STORE_TC_LIMIT, &[selector, high(value), low(value)])
}

pub fn stage(setting: &ColourSetting) -> Call {
    Call::with_setting(kinds::STAGE, &[], setting)
}

pub fn activate() -> Call {
    plain(kinds::ACTIVATE)
}

pub fn colour_value(id: u8) -> Call {
    Call::new(kinds::COLOUR_VALUE, &[id])
}

/// A call that takes no argument.
pub fn plain(kind: u8) -> Call {
    Call::new(kind, &[])
}

pub fn set_features(value: u8) -> Call {
    Call::new(kinds::SET_FEATURES, &[value])
}

pub fn memory_read(bank: u8, offset: u8) -> Call {
    Call::new(kinds::MEMORY_READ, &[bank, offset])
}

pub fn memory_write(bank: u8, offset: u8, value: u8) -> Call {
    Call::new(kinds::MEMORY_WRITE, &[bank, offset, value])
}

pub fn advances(bank: u8, offset: u8) -> Call {
    Call::new(kinds::ADVANCES, &[bank, offset])
}

pub fn implements(bank: u8) -> Call {
    Call::new(kinds::IMPLEMENTS, &[bank])
}

pub fn set_lock(value: u8) -> Call {
    Call::new(kinds::SET_LOCK, &[value])
}

pub fn set_bank1(offset: u8, value: u8) -> Call {
    Call::new(kinds::SET_BANK1, &[offset, value])
}

pub fn set_unit(units: u8, index: u8) -> Call {
    Call::new(kinds::SET_UNIT, &[units, index])
}

pub fn set_last_offset(last: u8) -> Call {
    Call::new(kinds::SET_LAST_OFFSET, &[last])
}

pub fn hear(frame: u16, repeats: bool) -> Call {
    Call::new(kinds::HEAR, &[high(frame), low(frame), repeats.into()])
}

pub fn holds(frame: u16) -> Call {
    Call::new(kinds::HOLDS, &[high(frame), low(frame)])
}

pub fn matches(address_kind: u8, number: u8) -> Call {
    Call::new(kinds::MATCHES, &[address_kind, number])
}

/// Sets one of the marks: enabled, lamp failure, lamp starting.
pub fn set_mark(kind: u8, value: bool) -> Call {
    Call::new(kind, &[value.into()])
}

pub fn set_faults(permille: u16, forced: u8, failure: u8, unstored: bool, holds: bool) -> Call {
    let bytes = [high(permille), low(permille), forced, failure, unstored.into(), holds.into()];
    Call::new(kinds::SET_FAULTS, &bytes)
}

pub fn place_level(level: u8, last_active: u8, limit_error: bool) -> Call {
    Call::new(kinds::PLACE_LEVEL, &[level, last_active, limit_error.into()])
}

/// 255 is off.
pub fn place_walk(cursor: u8) -> Call {
    Call::new(kinds::PLACE_WALK, &[cursor])
}

pub fn place_addressing(initialise: bool, withdrawn: bool, dimming_curve: u8) -> Call {
    Call::new(kinds::PLACE_ADDRESSING, &[initialise.into(), withdrawn.into(), dimming_curve])
}

pub fn place_scene_colour(scene: u8, setting: &ColourSetting) -> Call {
    Call::with_setting(kinds::PLACE_SCENE_COLOUR, &[scene], setting)
}

pub fn place_report(setting: &ColourSetting) -> Call {
    Call::with_setting(kinds::PLACE_REPORT, &[], setting)
}

pub fn place_power_on(level: u8, setting: &ColourSetting) -> Call {
    Call::with_setting(kinds::PLACE_POWER_ON, &[level], setting)
}

pub fn place_system_failure(level: u8, setting: &ColourSetting) -> Call {
    Call::with_setting(kinds::PLACE_SYSTEM_FAILURE, &[level], setting)
}

/// The numbers come from a setting, whose type byte is not used.
pub fn place_active(mode: ColorMode, numbers: &ColourSetting, out_of_range: bool) -> Call {
    let mut call = colour_numbers(kinds::PLACE_ACTIVE, mode, numbers);
    call.0[8] = out_of_range.into();
    call.0[9..15].copy_from_slice(&numbers.levels);
    call.0[15] = numbers.control;
    call
}

/// The numbers come from a setting, whose type byte is not used.
pub fn place_pending(mode: ColorMode, numbers: &ColourSetting) -> Call {
    let mut call = colour_numbers(kinds::PLACE_PENDING, mode, numbers);
    call.0[8..14].copy_from_slice(&numbers.levels);
    call.0[14] = numbers.control;
    call
}

fn colour_numbers(kind: u8, mode: ColorMode, numbers: &ColourSetting) -> Call {
    let (x, y, tc) = (numbers.x, numbers.y, numbers.tc);
    let bytes = [mode_byte(mode), high(x), low(x), high(y), low(y), high(tc), low(tc)];
    Call::new(kind, &bytes)
}

pub fn place_types(codes: &[u8]) -> Call {
    let mut call = Call::new(kinds::PLACE_TYPES, &[codes.len() as u8]);
    call.0[2..2 + codes.len()].copy_from_slice(codes);
    call
}

pub fn place_bank_byte(bank: u8, offset: u8, value: u8) -> Call {
    Call::new(kinds::PLACE_BANK_BYTE, &[bank, offset, value])
}

pub fn place_marks(marks: [bool; 4]) -> Call {
    Call::new(kinds::PLACE_MARKS, &marks.map(u8::from))
}

pub fn mode_byte(mode: ColorMode) -> u8 {
    match mode {
        ColorMode::None => 0,
        ColorMode::Cct => 1,
        ColorMode::Xy => 2,
        ColorMode::Rgb => 3,
    }
}
