//! Random arguments, drawn mostly from where something happens: limits and their neighbours.

use crate::chance::Chance;
use crate::fit::effective_limits;
use crate::gear::{ColorMode, ColourSetting, Gear};

fn beside(chance: &mut Chance, value: u8) -> u8 {
    chance.pick(&[value, value, value.wrapping_add(1), value.wrapping_sub(1)])
}

fn beside_word(chance: &mut Chance, value: u16) -> u16 {
    chance.pick(&[value, value, value.wrapping_add(1), value.wrapping_sub(1)])
}

/// A level, or the DTR0 of a write.
pub fn level(chance: &mut Chance, gear: &Gear) -> u8 {
    let limits = [gear.min_level, gear.max_level, gear.level, gear.last_active_level, gear.spec.phm];
    match chance.below(8) {
        0 => chance.pick(&[0, 1, 2, 253, 254, 255]),
        1..=4 => {
            let limit = chance.pick(&limits);
            beside(chance, limit)
        }
        _ => chance.byte(),
    }
}

/// A Tc, staged or for a limit.
pub fn tc(chance: &mut Chance, gear: &Gear) -> u16 {
    let (coolest, warmest) = (gear.spec.tc_coolest_mirek, gear.spec.tc_warmest_mirek);
    let (stored_coolest, stored_warmest) = (gear.tc_coolest_limit, gear.tc_warmest_limit);
    let limits = [coolest, warmest, stored_coolest, stored_warmest, gear.color_ct, gear.pending_ct];
    match chance.below(8) {
        0 => chance.pick(&[0, 1, 65_534, 65_535]),
        1..=3 => {
            let limit = chance.pick(&limits);
            beside_word(chance, limit)
        }
        4..=6 => chance.between(coolest, warmest),
        _ => chance.word(),
    }
}

/// A Tc that an active colour of a fit record may have.
pub fn active_tc(chance: &mut Chance, gear: &Gear) -> u16 {
    let (coolest, warmest) = effective_limits(gear);
    match chance.below(4) {
        0 => coolest,
        1 => warmest,
        _ => chance.between(coolest, warmest),
    }
}

/// Near the ends of an axis, where a step stops, or anywhere.
pub fn coordinate(chance: &mut Chance) -> u16 {
    match chance.below(4) {
        0 => chance.pick(&[0, 1, 255, 256, 257, 65_277, 65_278, 65_279, 65_534, 65_535]),
        _ => chance.word(),
    }
}

pub fn control(chance: &mut Chance) -> u8 {
    let usual = [0x00, 0x01, 0x3F, 0x40, 0x7F, 0x80, 0x81, 0xBF, 0xC0, 0xFF];
    if chance.coin() {
        chance.pick(&usual)
    } else {
        chance.byte()
    }
}

pub fn setting(chance: &mut Chance, gear: &Gear) -> ColourSetting {
    let colour_type = match chance.below(12) {
        0 => chance.byte(),
        1 => chance.pick(&[0x00, 0x40]),
        2 => 0xFF,
        3..=6 => 0x20,
        7..=9 => 0x80,
        _ => 0x10,
    };
    ColourSetting {
        colour_type,
        x: coordinate(chance),
        y: coordinate(chance),
        tc: tc(chance, gear),
        levels: std::array::from_fn(|_| chance.byte()),
        control: control(chance),
    }
}

pub fn mode(chance: &mut Chance) -> ColorMode {
    chance.pick(&[ColorMode::None, ColorMode::Cct, ColorMode::Cct, ColorMode::Xy, ColorMode::Rgb])
}

/// The low scenes and groups are taken more often, so that they meet.
pub fn one_of_sixteen(chance: &mut Chance) -> u8 {
    let n = chance.pick(&[4, 16]);
    chance.below(n) as u8
}

/// A colour value id, mostly one that some gear has.
pub fn value_id(chance: &mut Chance) -> u8 {
    let (first, count) = chance.pick(&[(0, 16), (62, 22), (126, 7), (191, 19), (223, 19), (0, 256)]);
    (first + chance.below(count)) as u8
}

pub fn bank(chance: &mut Chance) -> u8 {
    match chance.below(16) {
        0 => chance.byte(),
        1..=5 => 0,
        _ => 1,
    }
}

pub fn offset(chance: &mut Chance) -> u8 {
    match chance.below(16) {
        0 => chance.byte(),
        1..=3 => chance.below(4) as u8,
        _ => chance.below(32) as u8,
    }
}

/// 0x55 opens bank 1, so it is taken more often.
pub fn lock(chance: &mut Chance) -> u8 {
    let other = chance.byte();
    chance.pick(&[0x55, 0x55, 0x55, 0x00, 0x54, 0x56, 0xFF, other])
}

/// Few frames, so that pairs close, and now and then any frame.
pub fn frame(chance: &mut Chance) -> u16 {
    let other = chance.word();
    chance.pick(&[0x0B20, 0x0B2A, 0x0B2A, 0xFF20, 0x0000, 0xFFFF, other])
}

pub fn fault_bits(chance: &mut Chance) -> u8 {
    match chance.below(4) {
        0 | 1 => 0,
        2 => 1 << chance.below(8),
        _ => chance.byte(),
    }
}
