//! Performing a call on the Rust gear: one line of Rust for each kind.

use crate::absent::{absence, Absence, Capability};
use crate::answer::{Answer, BYTE_NOT_IN_TABLE, GROUP_ABOVE_15, PROFILE_NOT_ACCEPTED};
use crate::call::Call;
use crate::fit::unfit;
use crate::gear::{apply_standard_write, gear_query_reply, FaultInjection, Gear};
use crate::kinds::*;
use crate::place::place;
use crate::profile::Profile;
use dali2rust_domain::dali::pres::standard::StandardCommand;
use dali2rust_domain::dali::types::DaliAddress;
use dali2rust_platform::dali::TransferOutcome;

/// Why a call cannot stand in a list.
pub type Malformed = String;

/// Performs the call and judges the record after it: it is fit, and tells the last offset of bank 1 (document 02, 6).
pub fn step(gear: &mut Gear, call: &Call) -> Result<Answer, Malformed> {
    let answer = perform(gear, call)?;
    assert_eq!(gear.memory_location(1, 0), Some(16), "offset 0 of bank 1 does not read");
    match unfit(gear) {
        None => Ok(answer),
        Some(why) if is_placing(call.kind()) => Err(format!("it places an unfit record: {why}")),
        Some(why) => panic!("a call of a fit record left an unfit one: {why}"),
    }
}

fn perform(gear: &mut Gear, call: &Call) -> Result<Answer, Malformed> {
    match call.kind() {
        NEW => Ok(build(gear, call)),
        WRITE..=QUERY => Ok(standard(gear, call)),
        TC_STEP..=COPY_REPORT => Ok(colour(gear, call)),
        COLOUR_STATUS..=SET_FEATURES => Ok(colour_reads(gear, call)),
        MEMORY_READ..=IMPLEMENTS => Ok(memory(gear, call)),
        SET_LOCK..=CLEAR_IDENTIFICATION => Ok(set_bank(gear, call)),
        HEAR..=POWER_CYCLE => bus(gear, call),
        SET_ENABLED..=SET_FAULTS => Ok(set_mark(gear, call)),
        STATUS..=IS_DT8 => Ok(reads(gear, call)),
        PLACE_LEVEL..=PLACE_MARKS => place(gear, call).map(|()| Answer::Done).map_err(str::to_string),
        kind => Err(format!("no call has kind {kind}")),
    }
}

fn build(gear: &mut Gear, call: &Call) -> Answer {
    let profile = Profile::from_call(call);
    if !profile.accepted() {
        return PROFILE_NOT_ACCEPTED;
    }
    *gear = Gear::new(profile.spec());
    Answer::Done
}

fn standard(gear: &mut Gear, call: &Call) -> Answer {
    let byte = call.byte(1);
    match call.kind() {
        WRITE => write(gear, StandardCommand::write(byte), call.byte(2)),
        ARC_POWER => write(gear, Some(StandardCommand::DirectArcPower { level: byte }), 0),
        _ => query(gear, StandardCommand::query(byte)),
    }
}

fn write(gear: &mut Gear, command: Option<StandardCommand>, dtr0: u8) -> Answer {
    let Some(command) = command else {
        return BYTE_NOT_IN_TABLE;
    };
    apply_standard_write(gear, command, dtr0);
    Answer::Done
}

fn query(gear: &mut Gear, command: Option<StandardCommand>) -> Answer {
    let Some(command) = command else {
        return BYTE_NOT_IN_TABLE;
    };
    match gear_query_reply(gear, command) {
        TransferOutcome::Answer(value) => Answer::Value(value.into()),
        TransferOutcome::NoAnswer => Answer::None,
    }
}

fn colour(gear: &mut Gear, call: &Call) -> Answer {
    match call.kind() {
        TC_STEP => gear.tc_step(call.flag(1)),
        XY_STEP => gear.xy_step(call.flag(1), call.flag(2)),
        STORE_TC_LIMIT => gear.store_tc_limit(call.word(2), call.byte(1)),
        STAGE => gear.stage(&call.setting(1)),
        ACTIVATE => gear.activate_pending_color(),
        COLOUR_VALUE => return colour_value(gear, call.byte(1)),
        _ => gear.copy_report_to_temporary(),
    }
    Answer::Done
}

/// The value is the Rust's. Why there is none is the table's (document 02, 2), and the Rust has to bear it out.
fn colour_value(gear: &mut Gear, id: u8) -> Answer {
    match (gear.color_value(id), absence(id, &gear.spec)) {
        (Some(value), None) => Answer::Value(value),
        (None, Some(why)) => {
            assert!(bears_out(gear, id, why), "colour value {id} is absent, but not for the table's reason: {why:?}");
            Answer::of_absence(why)
        }
        (Some(value), Some(why)) => panic!("colour value {id} is {value}, but the table has it absent: {why:?}"),
        (None, None) => panic!("colour value {id} is absent, but the table has no reason"),
    }
}

/// An unknown id has no value on a gear that is capable of everything either. Any other has one on this gear, once it
/// is capable of what it lacks.
fn bears_out(gear: &mut Gear, id: u8, why: Absence) -> bool {
    match why {
        Absence::UnknownId => !has_value_with(&Capability::ALL, gear, id),
        Absence::NotCapable(lacking) => has_value_with(&[lacking], gear, id),
    }
}

/// Whether the gear would have a value if it were capable of these too.
fn has_value_with(capabilities: &[Capability], gear: &mut Gear, id: u8) -> bool {
    let spec = gear.spec.clone();
    capabilities.iter().for_each(|capability| capability.give(&mut gear.spec));
    let value = gear.color_value(id);
    gear.spec = spec;
    value.is_some()
}

fn colour_reads(gear: &mut Gear, call: &Call) -> Answer {
    match call.kind() {
        COLOUR_STATUS => Answer::Value(gear.dt8_colour_status().into()),
        COLOUR_FEATURES => Answer::Value(gear.dt8_features().into()),
        CONTROL_BYTE => Answer::of_byte(gear.rgbwaf_control_byte()),
        FEATURES_BYTE => Answer::Value(gear.gear_features_byte().into()),
        AUTOMATIC_ACTIVATION => Answer::Bool(gear.automatic_activation()),
        _ => {
            gear.gear_features = call.byte(1);
            Answer::Done
        }
    }
}

fn memory(gear: &mut Gear, call: &Call) -> Answer {
    let (bank, offset) = (call.byte(1), call.byte(2));
    match call.kind() {
        MEMORY_READ => Answer::of_byte(gear.memory_location(bank, offset)),
        MEMORY_WRITE => Answer::of_byte(gear.write_memory_location(bank, offset, call.byte(3))),
        ADVANCES => Answer::Bool(gear.advances_dtr0_past(bank, offset)),
        _ => Answer::Bool(gear.implements_bank(bank)),
    }
}

fn set_bank(gear: &mut Gear, call: &Call) -> Answer {
    match call.kind() {
        SET_LOCK => gear.set_bank1_lock_byte(call.byte(1)),
        SET_BANK1 => gear.set_bank1_location(call.byte(1), call.byte(2)),
        SET_UNIT => gear.set_logical_gear_unit(call.byte(1), call.byte(2)),
        SET_LAST_OFFSET => gear.set_bank0_last_offset(call.byte(1)),
        _ => gear.clear_identification_number(),
    }
    Answer::Done
}

fn bus(gear: &mut Gear, call: &Call) -> Result<Answer, Malformed> {
    Ok(match call.kind() {
        HEAR => hear(gear, call.word(1), call.flag(3)),
        HOLDS => Answer::Bool(gear.holds(call.word(1))),
        HEAR_ELSEWHERE => Answer::Bool(gear.hear_elsewhere()),
        MATCHES => return matches(gear, call.byte(1), call.byte(2)),
        _ => {
            gear.power_cycle();
            Answer::Done
        }
    })
}

fn hear(gear: &mut Gear, frame: u16, repeats: bool) -> Answer {
    let heard = gear.hear(frame, repeats);
    let bits = [heard.executes, heard.completed_pair, heard.split];
    Answer::Value(bits_of(&bits))
}

/// The first is bit 0.
fn bits_of(bits: &[bool]) -> u16 {
    bits.iter().rev().fold(0, |sum, bit| sum * 2 + u16::from(*bit))
}

/// A group above 15 never reaches the Rust, which would shift too far.
fn matches(gear: &Gear, kind: u8, number: u8) -> Result<Answer, Malformed> {
    let address = match kind {
        0 => DaliAddress::Short(number),
        1 if number > 15 => return Ok(GROUP_ABOVE_15),
        1 => DaliAddress::Group(number),
        2 => DaliAddress::Broadcast,
        3 => DaliAddress::BroadcastUnaddressed,
        _ => return Err(format!("address kind {kind} is above 3")),
    };
    Ok(Answer::Bool(gear.matches(address)))
}

fn set_mark(gear: &mut Gear, call: &Call) -> Answer {
    match call.kind() {
        SET_ENABLED => gear.enabled = call.flag(1),
        SET_LAMP_FAILURE => gear.lamp_failure = call.flag(1),
        SET_LAMP_STARTING => gear.lamp_starting = call.flag(1),
        _ => {
            gear.faults = FaultInjection {
                drop_answer_permille: call.word(1),
                forced_status: call.byte(3),
                failure_status: call.byte(4),
                memory_write_unstored: call.flag(5),
                memory_write_holds_dtr0: call.flag(6),
            }
        }
    }
    Answer::Done
}

fn reads(gear: &Gear, call: &Call) -> Answer {
    match call.kind() {
        STATUS => Answer::Value(gear.status_byte().into()),
        LAMP_ON => Answer::Bool(gear.lamp_on()),
        FAILURE_BITS => Answer::Value(failure_bits(gear)),
        THERMAL => Answer::Bool(gear.thermal_shut_down()),
        LAMP_FAILURE_207 => Answer::Bool(gear.lamp_failure_from_207()),
        ACTUAL_LEVEL => Answer::Value(gear.actual_level_answer().into()),
        IS_DT6 => Answer::Bool(gear.is_dt6()),
        IS_DT7 => Answer::Bool(gear.is_dt7()),
        _ => Answer::Bool(gear.is_dt8()),
    }
}

fn failure_bits(gear: &Gear) -> u16 {
    let bits = gear.failure_bits();
    bits_of(&[
        bits.short_circuit,
        bits.open_circuit,
        bits.load_decrease,
        bits.load_increase,
        bits.current_protector_active,
        bits.thermal_shut_down,
        bits.thermal_overload,
    ])
}
