//! The acts of a random list, each with its weight: one call, or a short plan that belongs together.

use super::placings::placing;
use super::{profiles, values, Plan};
use crate::calls::*;
use crate::kinds;

pub type Act = fn(&mut Plan);

pub const ONGOING: &[(u32, Act)] = &[
    (50, arc),
    (100, level_write),
    (50, limit_write),
    (50, go_to_scene),
    (40, set_scene),
    (8, remove_scene),
    (36, group_write),
    (30, stored_level),
    (24, fade_write),
    (12, mark_write),
    (16, any_write),
    (70, any_query),
    (30, report_query),
    (8, byte_query),
    (14, walk),
    (40, one_tc_step),
    (30, one_xy_step),
    (60, tc_limit),
    (50, stage_alone),
    (40, stage_and_use),
    (16, report_and_use),
    (30, activation),
    (60, value),
    (16, copy),
    (20, colour_read),
    (16, features),
    (40, read_memory),
    (40, write_memory),
    (14, memory_facts),
    (20, bank_setter),
    (30, pair),
    (20, pair_part),
    (30, address),
    (24, lamp_or_enabled),
    (12, faults),
    (40, plain_read),
    (36, placing),
];

pub const RENEWING: &[(u32, Act)] = &[(1, reset), (2, power_cycle), (1, new_gear), (1, refused_gear)];

fn arc(p: &mut Plan) {
    let level = values::level(p.chance, p.gear);
    p.add(arc_power(level));
}

fn write_with_level(p: &mut Plan, byte: u8) {
    let dtr0 = values::level(p.chance, p.gear);
    p.add(write(byte, dtr0));
}

fn level_write(p: &mut Plan) {
    let byte = p.chance.pick(&[0, 1, 1, 2, 3, 3, 4, 4, 5, 6, 7, 8, 8, 10]);
    write_with_level(p, byte);
}

fn limit_write(p: &mut Plan) {
    let byte = p.chance.pick(&[42, 43]);
    write_with_level(p, byte);
}

fn go_to_scene(p: &mut Plan) {
    let scene = values::one_of_sixteen(p.chance);
    write_with_level(p, 16 + scene);
}

fn set_scene(p: &mut Plan) {
    let scene = values::one_of_sixteen(p.chance);
    write_with_level(p, 64 + scene);
}

fn remove_scene(p: &mut Plan) {
    let scene = values::one_of_sixteen(p.chance);
    write_with_level(p, 80 + scene);
}

fn group_write(p: &mut Plan) {
    let byte = p.chance.pick(&[96, 112]) + values::one_of_sixteen(p.chance);
    write_with_level(p, byte);
}

fn stored_level(p: &mut Plan) {
    let byte = p.chance.pick(&[44, 45]);
    write_with_level(p, byte);
}

fn fade_write(p: &mut Plan) {
    let byte = p.chance.pick(&[46, 47, 48]);
    let other = p.chance.byte();
    let dtr0 = p.chance.pick(&[0, 1, 7, 15, 16, 0x4E, 0x4F, 0x50, other]);
    p.add(write(byte, dtr0));
}

/// Identify, and write enable.
fn mark_write(p: &mut Plan) {
    let byte = p.chance.pick(&[37, 129]);
    write_with_level(p, byte);
}

/// Any byte but Reset, which is rare on purpose.
fn any_write(p: &mut Plan) {
    let byte = p.chance.byte();
    write_with_level(p, if byte == 32 { 33 } else { byte });
}

fn any_query(p: &mut Plan) {
    let byte = 144 + p.chance.below(53) as u8;
    p.add(query(byte));
}

fn report_query(p: &mut Plan) {
    let scene = 176 + values::one_of_sixteen(p.chance);
    let byte = p.chance.pick(&[160, 160, 163, 164, scene, scene]);
    p.add(query(byte));
}

fn byte_query(p: &mut Plan) {
    let byte = p.chance.byte();
    p.add(query(byte));
}

/// Query 153 and the list after it, sometimes with a call between.
fn walk(p: &mut Plan) {
    let count = p.gear.spec.device_types.len();
    p.add(query(153));
    for _ in 0..p.chance.below(count + 4) {
        p.add(query(167));
    }
    if p.chance.coin() {
        let byte = p.chance.byte();
        let level = p.chance.byte();
        let between = [query(byte), write(byte | 1, level), plain(kinds::HEAR_ELSEWHERE), arc_power(level)];
        let call = p.chance.pick(&between);
        p.add(call);
        p.add(query(167));
    }
}

fn one_tc_step(p: &mut Plan) {
    let warmer = p.chance.coin();
    p.add(tc_step(warmer));
}

fn one_xy_step(p: &mut Plan) {
    let (y_axis, up) = (p.chance.coin(), p.chance.coin());
    p.add(xy_step(y_axis, up));
}

fn tc_limit(p: &mut Plan) {
    let other = p.chance.byte();
    let selector = p.chance.pick(&[0, 0, 0, 0, 1, 1, 1, 1, 2, 2, 2, 3, 3, 3, 4, other]);
    let value = values::tc(p.chance, p.gear);
    p.add(store_tc_limit(selector, value));
}

fn stage_alone(p: &mut Plan) {
    let setting = values::setting(p.chance, p.gear);
    p.add(stage(&setting));
}

/// Stages a colour and puts it to use: activation, an arc write, a scene, a stored level.
fn stage_and_use(p: &mut Plan) {
    stage_alone(p);
    let uses: [Act; 6] = [activation, arc, level_write, set_scene, stored_level, go_to_scene];
    p.chance.pick(&uses)(p);
}

/// Asks for a report and stages that.
fn report_and_use(p: &mut Plan) {
    report_query(p);
    copy(p);
    let uses: [Act; 4] = [activation, arc, set_scene, value];
    p.chance.pick(&uses)(p);
}

fn activation(p: &mut Plan) {
    p.add(activate());
}

fn value(p: &mut Plan) {
    let id = values::value_id(p.chance);
    p.add(colour_value(id));
}

fn copy(p: &mut Plan) {
    p.add(plain(kinds::COPY_REPORT));
}

fn colour_read(p: &mut Plan) {
    let kind = kinds::COLOUR_STATUS + p.chance.below(5) as u8;
    p.add(plain(kind));
}

fn features(p: &mut Plan) {
    let other = p.chance.byte();
    let value = p.chance.pick(&[1, 1, 1, 0, 0, 0xFE, 0xFF, other]);
    p.add(set_features(value));
}

fn read_memory(p: &mut Plan) {
    let (bank, offset) = (values::bank(p.chance), values::offset(p.chance));
    p.add(memory_read(bank, offset));
}

fn write_memory(p: &mut Plan) {
    let (bank, offset) = (values::bank(p.chance), values::offset(p.chance));
    let value = if offset == 2 { values::lock(p.chance) } else { p.chance.byte() };
    p.add(memory_write(bank, offset, value));
}

fn memory_facts(p: &mut Plan) {
    let (bank, offset) = (values::bank(p.chance), values::offset(p.chance));
    let call = p.chance.pick(&[advances(bank, offset), advances(bank, offset), implements(bank)]);
    p.add(call);
}

fn bank_setter(p: &mut Plan) {
    let (offset, value, other) = (values::offset(p.chance), p.chance.byte(), p.chance.byte());
    let lock = values::lock(p.chance);
    let last = p.chance.pick(&[0, 1, 2, 25, 26, 26, 27, 28, 28, 29, 255, other]);
    let in_bank1 = if offset == 2 { lock } else { value };
    let setters = [
        set_lock(lock),
        set_bank1(offset, in_bank1),
        set_unit(value, other),
        set_last_offset(last),
        plain(kinds::CLEAR_IDENTIFICATION),
    ];
    let call = p.chance.pick(&setters);
    p.add(call);
}

/// A frame and its copy, sometimes with something between.
fn pair(p: &mut Plan) {
    let frame = values::frame(p.chance);
    p.add(hear(frame, true));
    if p.chance.coin() {
        pair_part(p);
    }
    let repeats = !p.chance.one_in(4);
    p.add(hear(frame, repeats));
}

fn pair_part(p: &mut Plan) {
    let (frame, repeats) = (values::frame(p.chance), p.chance.coin());
    let parts = [hear(frame, repeats), holds(frame), holds(frame), plain(kinds::HEAR_ELSEWHERE)];
    let call = p.chance.pick(&parts);
    p.add(call);
}

fn address(p: &mut Plan) {
    let other = p.chance.byte();
    let short = p.gear.spec.short_address.unwrap_or(255);
    let group = values::one_of_sixteen(p.chance);
    let calls = [
        matches(0, short),
        matches(0, other),
        matches(1, group),
        matches(1, group),
        matches(1, 16),
        matches(1, other),
        matches(2, 0),
        matches(3, 0),
    ];
    let call = p.chance.pick(&calls);
    p.add(call);
}

fn lamp_or_enabled(p: &mut Plan) {
    let kind = p.chance.pick(&[kinds::SET_ENABLED, kinds::SET_LAMP_FAILURE, kinds::SET_LAMP_STARTING]);
    let value = p.chance.coin();
    p.add(set_mark(kind, value));
}

fn faults(p: &mut Plan) {
    let permille = p.chance.word();
    let (forced, failure) = (values::fault_bits(p.chance), values::fault_bits(p.chance));
    let (unstored, holds) = (p.chance.one_in(4), p.chance.coin());
    p.add(set_faults(permille, forced, failure, unstored, holds));
}

fn plain_read(p: &mut Plan) {
    let kind = kinds::STATUS + p.chance.below(9) as u8;
    p.add(plain(kind));
}

fn reset(p: &mut Plan) {
    write_with_level(p, 32);
}

fn power_cycle(p: &mut Plan) {
    p.add(plain(kinds::POWER_CYCLE));
}

fn new_gear(p: &mut Plan) {
    let profile = profiles::for_new_gear(p.chance);
    p.add(profile.call());
}

fn refused_gear(p: &mut Plan) {
    let profile = profiles::refused(p.chance);
    p.add(profile.call());
}
