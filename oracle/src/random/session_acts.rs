//! Acts for a session: short plans that change something and then ask for it, so that a wrong record
//! shows in the lines of a session that is short.

use super::acts::Act;
use super::{values, Plan};
use crate::calls::*;
use crate::gear::ColourSetting;
use crate::kinds;
use dali2rust_domain::dali::devices::dt8_color::COLOUR_TYPE_BYTE_TC;

pub const SHOWING: &[(u32, Act)] = &[
    (160, power),
    (160, limits),
    (240, tint),
    (240, scene),
    (80, group),
    (80, whole_walk),
    (160, bank),
    (160, tc_limits),
    (40, activation_off),
    (20, reset),
];

/// Ids of colour values that tell much: active, staged and reported Tc, the limits, the modes.
const TELLING_IDS: [u8; 10] = [2, 15, 128, 129, 130, 131, 194, 208, 226, 240];

fn ask_level(p: &mut Plan) {
    let byte = p.chance.pick(&[160, 160, 144, 148]);
    p.add(query(byte));
}

fn ask_colour(p: &mut Plan) {
    let id = p.chance.pick(&TELLING_IDS);
    p.add(colour_value(id));
}

fn stage_some_tc(p: &mut Plan) {
    let tc = values::tc(p.chance, p.gear);
    p.add(stage(&ColourSetting { tc, colour_type: COLOUR_TYPE_BYTE_TC, ..ColourSetting::mask() }));
}

fn some_arc(p: &mut Plan) {
    let level = values::level(p.chance, p.gear);
    p.add(arc_power(level));
}

fn power(p: &mut Plan) {
    let level = values::level(p.chance, p.gear);
    if p.chance.coin() {
        p.add(write(45, level));
    }
    p.add(plain(kinds::POWER_CYCLE));
    ask_level(p);
    p.add(query(155));
}

fn limits(p: &mut Plan) {
    let (byte, bound) = (p.chance.pick(&[42, 43]), values::level(p.chance, p.gear));
    p.add(write(byte, bound));
    if p.chance.coin() {
        some_arc(p);
    }
    ask_level(p);
    p.add(query(161));
    p.add(query(162));
}

/// A staged Tc is put to use, or not, and asked for.
fn tint(p: &mut Plan) {
    stage_some_tc(p);
    match p.chance.below(4) {
        0 => {}
        1 => some_arc(p),
        _ => p.add(activate()),
    }
    let warmer = p.chance.coin();
    (0..p.chance.below(3)).for_each(|_| p.add(tc_step(warmer)));
    ask_colour(p);
    p.add(colour_value(2));
}

/// A scene is stored, recalled and asked for, and the report is staged.
fn scene(p: &mut Plan) {
    let (scene, level) = (values::one_of_sixteen(p.chance), values::level(p.chance, p.gear));
    if p.chance.coin() {
        stage_some_tc(p);
    }
    p.add(write(64 + scene, level));
    if p.chance.coin() {
        some_arc(p);
    }
    p.add(write(16 + scene, 0));
    p.add(query(176 + scene));
    if p.chance.coin() {
        p.add(plain(kinds::COPY_REPORT));
        p.add(activate());
    }
    ask_colour(p);
    ask_level(p);
}

fn group(p: &mut Plan) {
    let (byte, group) = (p.chance.pick(&[96, 96, 112]), values::one_of_sixteen(p.chance));
    p.add(write(byte + group, 0));
    p.add(query(192 + group / 8));
}

/// To the end of the list and beyond it.
fn whole_walk(p: &mut Plan) {
    p.add(query(153));
    (0..p.gear.spec.device_types.len() + 2).for_each(|_| p.add(query(167)));
}

/// Opens or closes bank 1, writes there and reads it again.
fn bank(p: &mut Plan) {
    let (lock, offset, value) = (values::lock(p.chance), values::offset(p.chance), p.chance.byte());
    p.add(memory_write(1, 2, lock));
    p.add(memory_write(1, offset, value));
    p.add(memory_read(1, offset));
}

/// An active Tc and limits that move over it.
fn tc_limits(p: &mut Plan) {
    stage_some_tc(p);
    p.add(activate());
    for _ in 0..1 + p.chance.below(3) {
        let (selector, value) = (p.chance.below(4) as u8, values::tc(p.chance, p.gear));
        p.add(store_tc_limit(selector, value));
    }
    p.add(colour_value(2));
    let limit = p.chance.pick(&[128, 129, 130, 131]);
    p.add(colour_value(limit));
}

/// Then an arc write activates nothing, and a recall only stages.
fn activation_off(p: &mut Plan) {
    p.add(set_features(0));
    stage_some_tc(p);
    some_arc(p);
    ask_colour(p);
}

fn reset(p: &mut Plan) {
    p.add(write(32, 0));
    p.add(query(149));
}
