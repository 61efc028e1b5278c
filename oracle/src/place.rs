//! The placing kinds: no calls of the record; they put values into it.

use crate::call::Call;
use crate::gear::{ColorMode, Gear, LevelSetting};
use crate::image::WALK_OFF;
use crate::kinds::*;
use crate::profile::CODES_LEN;

pub fn place(gear: &mut Gear, call: &Call) -> Result<(), &'static str> {
    match call.kind() {
        PLACE_LEVEL => level(gear, call),
        PLACE_WALK => return walk(gear, call),
        PLACE_ADDRESSING => addressing(gear, call),
        PLACE_SCENE_COLOUR => return scene_colour(gear, call),
        PLACE_REPORT => gear.report = call.setting(1),
        PLACE_POWER_ON => gear.power_on = level_setting(call),
        PLACE_SYSTEM_FAILURE => gear.system_failure = level_setting(call),
        PLACE_ACTIVE => return active(gear, call),
        PLACE_PENDING => return pending(gear, call),
        PLACE_TYPES => return types(gear, call),
        PLACE_BANK_BYTE => return bank_byte(gear, call),
        _ => marks(gear, call),
    }
    Ok(())
}

fn level(gear: &mut Gear, call: &Call) {
    gear.level = call.byte(1);
    gear.last_active_level = call.byte(2);
    gear.limit_error = call.flag(3);
}

fn walk(gear: &mut Gear, call: &Call) -> Result<(), &'static str> {
    gear.place_walk(match call.byte(1) {
        WALK_OFF => None,
        cursor @ 0..=16 => Some(cursor.into()),
        _ => return Err("a walk is 0 to 16, or 255 for off"),
    });
    Ok(())
}

fn addressing(gear: &mut Gear, call: &Call) {
    gear.initialise = call.flag(1);
    gear.withdrawn = call.flag(2);
    gear.dimming_curve = call.byte(3);
}

fn scene_colour(gear: &mut Gear, call: &Call) -> Result<(), &'static str> {
    let slot = gear.scene_colours.get_mut(usize::from(call.byte(1)));
    *slot.ok_or("a scene is 0 to 15")? = call.setting(2);
    Ok(())
}

fn level_setting(call: &Call) -> LevelSetting {
    LevelSetting { level: call.byte(1), colour: call.setting(2) }
}

fn mode(byte: u8) -> Result<ColorMode, &'static str> {
    Ok(match byte {
        0 => ColorMode::None,
        1 => ColorMode::Cct,
        2 => ColorMode::Xy,
        3 => ColorMode::Rgb,
        _ => return Err("a colour mode is 0 to 3"),
    })
}

fn active(gear: &mut Gear, call: &Call) -> Result<(), &'static str> {
    gear.color_mode = mode(call.byte(1))?;
    gear.color_x = call.word(2);
    gear.color_y = call.word(4);
    gear.color_ct = call.word(6);
    gear.place_out_of_range(call.flag(8));
    gear.rgbwaf.levels = call.levels(9);
    gear.rgbwaf.control = call.byte(15);
    Ok(())
}

fn pending(gear: &mut Gear, call: &Call) -> Result<(), &'static str> {
    gear.pending_mode = mode(call.byte(1))?;
    gear.pending_x = call.word(2);
    gear.pending_y = call.word(4);
    gear.pending_ct = call.word(6);
    gear.rgbwaf.pending_levels = call.levels(8);
    gear.rgbwaf.pending_control = call.byte(14);
    Ok(())
}

fn types(gear: &mut Gear, call: &Call) -> Result<(), &'static str> {
    let count = usize::from(call.byte(1));
    if count > CODES_LEN {
        return Err("a record holds at most 16 types");
    }
    gear.spec.device_types = call.0[2..2 + count].to_vec();
    Ok(())
}

fn bank_byte(gear: &mut Gear, call: &Call) -> Result<(), &'static str> {
    if gear.place_bank_byte(call.byte(1), call.byte(2), call.byte(3)) {
        Ok(())
    } else {
        Err("bank 0 has offsets 0 to 28, bank 1 has 0 to 16, and there is no other bank")
    }
}

fn marks(gear: &mut Gear, call: &Call) {
    gear.reset_state = call.flag(1);
    gear.power_cycle_seen = call.flag(2);
    gear.identifying = call.flag(3);
    gear.write_enabled = call.flag(4);
}
