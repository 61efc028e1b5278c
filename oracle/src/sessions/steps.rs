//! The steps of a generated session: the calls of a random list that a step can say, and steps of any bytes.

use crate::call::Call;
use crate::chance::Chance;
use crate::gear::Gear;
use crate::kinds;
use crate::profile::Profile;
use crate::random;
use crate::session::lines::Runner;
use crate::session::step::*;
use dali2rust_domain::dali::devices::dt8_color::COLOUR_TYPE_BYTE_TC;

/// The steps run while they are drawn, so that their bytes belong to the record that they meet.
pub fn some_steps(chance: &mut Chance, profile: &Profile, count: usize) -> Vec<Step> {
    let mut runner = Runner::new(profile);
    let mut calls = random::Generator::for_sessions(chance.next());
    let mut draw = || {
        let step = next_step(chance, &mut calls, runner.gear());
        runner.perform(step);
        step
    };
    (0..count).map(|_| draw()).collect()
}

/// A step for every colour value id, in order.
pub fn every_id(chance: &mut Chance) -> Vec<Step> {
    let mut ask = |id| {
        let [p, q, _] = ignored_bytes(chance);
        Step([COLOUR_VALUE, id, p, q])
    };
    (0..=255).map(|id| ask(id)).collect()
}

fn next_step(chance: &mut Chance, calls: &mut random::Generator, gear: &Gear) -> Step {
    match chance.below(40) {
        0..=2 => of_unlisted_kind(chance),
        3..=5 => of_any_arguments(chance),
        6 => Step(std::array::from_fn(|_| chance.byte())),
        _ => loop {
            if let Some(step) = of_call(&calls.next(gear), chance) {
                return step;
            }
        },
    }
}

fn of_unlisted_kind(chance: &mut Chance) -> Step {
    let first = LISTED_KINDS as u8;
    let any = chance.between(first.into(), 255) as u8;
    let kind = chance.pick(&[first, first, 255, any]);
    let [p, q, r] = ignored_bytes(chance);
    Step([kind, p, q, r])
}

fn of_any_arguments(chance: &mut Chance) -> Step {
    let kind = chance.below(LISTED_KINDS) as u8;
    Step([kind, chance.byte(), chance.byte(), chance.byte()])
}

fn ignored_bytes(chance: &mut Chance) -> [u8; 3] {
    if chance.coin() {
        [0; 3]
    } else {
        std::array::from_fn(|_| chance.byte())
    }
}

/// None where no step says this call.
fn of_call(call: &Call, chance: &mut Chance) -> Option<Step> {
    let [p, q, r] = ignored_bytes(chance);
    let [a, b, c] = [call.byte(1), call.byte(2), call.byte(3)];
    let [tc_high, tc_low] = [call.byte(6), call.byte(7)];
    Some(Step(match call.kind() {
        kinds::ARC_POWER => [ARC_POWER, a, p, q],
        kinds::WRITE => [WRITE, a, b, p],
        kinds::QUERY => [QUERY, a, p, q],
        kinds::MEMORY_READ => [MEMORY_READ, a, b, p],
        kinds::MEMORY_WRITE => [MEMORY_WRITE, a, b, c],
        kinds::COLOUR_VALUE => [COLOUR_VALUE, a, p, q],
        kinds::STORE_TC_LIMIT => [TC_LIMIT, a, b, c],
        kinds::TC_STEP if call.flag(1) => [TC_STEP, p.max(1), q, r],
        kinds::TC_STEP => [TC_STEP, 0, p, q],
        kinds::STAGE if a == COLOUR_TYPE_BYTE_TC => [STAGE_TC, p, tc_high, tc_low],
        kinds::ACTIVATE => [ACTIVATE, p, q, r],
        kinds::POWER_CYCLE => [POWER_CYCLE, p, q, r],
        kinds::COPY_REPORT => [COPY_REPORT, p, q, r],
        kinds::SET_FEATURES => [FEATURES, a, p, q],
        _ => return None,
    }))
}
