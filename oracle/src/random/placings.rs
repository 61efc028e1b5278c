//! The placing acts of a random list. What they place keeps the record fit.

use super::acts::Act;
use super::{profiles, values, Plan};
use crate::calls::*;
use crate::gear::ColorMode;

const PLACINGS: &[Act] = &[
    place_some_level,
    place_some_walk,
    place_some_marks,
    place_some_stored,
    place_some_report,
    place_some_active,
    place_some_pending,
    place_some_types,
    place_some_bank_byte,
];

pub fn placing(p: &mut Plan) {
    p.chance.pick(PLACINGS)(p);
}

fn place_some_level(p: &mut Plan) {
    let (level, last) = (values::level(p.chance, p.gear), values::level(p.chance, p.gear));
    let limit_error = p.chance.coin();
    p.add(place_level(level, last, limit_error));
}

fn place_some_walk(p: &mut Plan) {
    let cursor = p.chance.below(17) as u8;
    let walk = p.chance.pick(&[255, cursor, cursor, cursor]);
    p.add(place_walk(walk));
    p.add(query(167));
}

fn place_some_marks(p: &mut Plan) {
    let marks = std::array::from_fn(|_| p.chance.coin());
    let curve = p.chance.byte();
    let calls = [place_marks(marks), place_addressing(marks[0], marks[1], curve)];
    let call = p.chance.pick(&calls);
    p.add(call);
}

fn place_some_stored(p: &mut Plan) {
    let scene = values::one_of_sixteen(p.chance);
    let level = values::level(p.chance, p.gear);
    let setting = values::setting(p.chance, p.gear);
    let calls = [
        place_scene_colour(scene, &setting),
        place_scene_colour(scene, &setting),
        place_power_on(level, &setting),
        place_system_failure(level, &setting),
    ];
    let call = p.chance.pick(&calls);
    p.add(call);
}

fn place_some_report(p: &mut Plan) {
    let setting = values::setting(p.chance, p.gear);
    p.add(place_report(&setting));
}

/// An active Tc lies within the effective limits: else the record would not be fit.
fn place_some_active(p: &mut Plan) {
    let mode = values::mode(p.chance);
    let mut setting = values::setting(p.chance, p.gear);
    if mode == ColorMode::Cct {
        setting.tc = values::active_tc(p.chance, p.gear);
    }
    let out_of_range = p.chance.coin();
    p.add(place_active(mode, &setting, out_of_range));
}

fn place_some_pending(p: &mut Plan) {
    let mode = values::mode(p.chance);
    let setting = values::setting(p.chance, p.gear);
    p.add(place_pending(mode, &setting));
}

/// Without type 7 the floor is the physical minimum: where min is below it, the list keeps a 7.
fn place_some_types(p: &mut Plan) {
    let mut codes = profiles::longer_list(p.chance);
    if p.gear.min_level < p.gear.spec.phm && !codes.contains(&7) {
        codes.truncate(15);
        codes.push(7);
    }
    p.add(place_types(&codes));
}

fn place_some_bank_byte(p: &mut Plan) {
    let (bank, length) = p.chance.pick(&[(0, 29), (1, 17)]);
    let offset = p.chance.below(length) as u8;
    let value = if bank == 1 && offset == 2 { values::lock(p.chance) } else { p.chance.byte() };
    p.add(place_bank_byte(bank, offset, value));
}
