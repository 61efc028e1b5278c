//! A runner on the Rust gear as one would write it for speed: the file is read once, each step is a call on
//! one record in place, and the lines go into a lent buffer. Nothing is allocated but the gear's own list of types.

use crate::absent::absence;
use crate::answer::{Answer, BYTE_NOT_IN_TABLE, STEP_KIND_NOT_LISTED};
use crate::gear::{apply_standard_write, gear_query_reply, ColourSetting, Gear};
use crate::profile::{Profile, CODES_LEN};
use crate::session::step::*;
use crate::text;
use dali2rust_domain::dali::devices::dt8_color::COLOUR_TYPE_BYTE_TC;
use dali2rust_domain::dali::pres::standard::StandardCommand;
use dali2rust_platform::dali::TransferOutcome;

/// The bytes of the file's lines. None where the file is malformed; `out` has to have room.
pub fn run(file: &[u8], out: &mut [u8]) -> Option<usize> {
    let (profile, steps) = parse(file)?;
    let mut gear = Gear::new(profile.spec());
    let mut at = 0;
    for (index, step) in steps.chunks_exact(STEP_LEN).enumerate() {
        let answer = perform(&mut gear, step[0], step[1], step[2], step[3]);
        at = text::line(out, at, index as u32 + 1, answer);
    }
    Some(text::end(out, at, [gear.level, gear.min_level, gear.max_level]))
}

/// Performs the steps of the file and one more, whose answer it gives. Each answer is worked out: the
/// black box keeps the compiler from leaving out a read that nobody looks at.
pub fn ask(file: &[u8], last: [u8; STEP_LEN]) -> Option<Answer> {
    let (profile, steps) = parse(file)?;
    let mut gear = Gear::new(profile.spec());
    for step in steps.chunks_exact(STEP_LEN) {
        std::hint::black_box(perform(&mut gear, step[0], step[1], step[2], step[3]));
    }
    Some(perform(&mut gear, last[0], last[1], last[2], last[3]))
}

/// The profile and the steps of a well formed file.
fn parse(file: &[u8]) -> Option<(Profile, &[u8])> {
    let (count, rest) = file.split_first()?;
    let codes = rest.get(..usize::from(*count))?;
    let rest = &rest[codes.len()..];
    let (front, steps) = (rest.get(..14)?, &rest[14..]);
    let mut types = [0; CODES_LEN];
    types.get_mut(..codes.len())?.copy_from_slice(codes);
    let profile = Profile {
        type_count: *count,
        types,
        short_address: front[1],
        random_address: u32::from_be_bytes([0, front[2], front[3], front[4]]),
        flags: front[5],
        channels: front[6],
        coolest: word(front[7], front[8]),
        warmest: word(front[9], front[10]),
        physical_minimum: front[11],
    };
    let count = usize::from(word(front[12], front[13]));
    let sound =
        front[0] == 11 && front[5] < 32 && profile.accepted() && count <= 4_096 && steps.len() == count * STEP_LEN;
    sound.then_some((profile, steps))
}

fn word(high: u8, low: u8) -> u16 {
    u16::from_be_bytes([high, low])
}

fn perform(gear: &mut Gear, kind: u8, a: u8, b: u8, c: u8) -> Answer {
    match kind {
        ARC_POWER => apply_standard_write(gear, StandardCommand::DirectArcPower { level: a }, 0),
        WRITE => match StandardCommand::write(a) {
            Some(command) => apply_standard_write(gear, command, b),
            None => return BYTE_NOT_IN_TABLE,
        },
        QUERY => return query(gear, a),
        MEMORY_READ => return Answer::of_byte(gear.memory_location(a, b)),
        MEMORY_WRITE => return Answer::of_byte(gear.write_memory_location(a, b, c)),
        COLOUR_VALUE => return colour_value(gear, a),
        TC_LIMIT => gear.store_tc_limit(word(b, c), a),
        TC_STEP => gear.tc_step(a != 0),
        STAGE_TC => stage(gear, word(b, c)),
        ACTIVATE => gear.activate_pending_color(),
        POWER_CYCLE => gear.power_cycle(),
        COPY_REPORT => gear.copy_report_to_temporary(),
        FEATURES => gear.gear_features = a,
        _ => return STEP_KIND_NOT_LISTED,
    }
    Answer::Done
}

fn query(gear: &mut Gear, byte: u8) -> Answer {
    match StandardCommand::query(byte).map(|command| gear_query_reply(gear, command)) {
        Some(TransferOutcome::Answer(value)) => Answer::Value(value.into()),
        Some(TransferOutcome::NoAnswer) => Answer::None,
        None => BYTE_NOT_IN_TABLE,
    }
}

/// Why there is no value is looked up only where the Rust gives none.
fn colour_value(gear: &Gear, id: u8) -> Answer {
    match gear.color_value(id) {
        Some(value) => Answer::Value(value),
        None => Answer::of_absence(absence(id, &gear.spec).expect("a value that is absent has a reason")),
    }
}

fn stage(gear: &mut Gear, tc: u16) {
    gear.stage(&ColourSetting { tc, colour_type: COLOUR_TYPE_BYTE_TC, ..ColourSetting::mask() });
}
