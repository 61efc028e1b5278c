//! The image of a record: 426 bytes, every field in the fixed order, and their digest.

use crate::call::setting_bytes;
use crate::calls::mode_byte;
use crate::gear::{ColourSetting, Gear};
use crate::kinds::Form::{self, Byte, Bytes, Flag, Number, Setting, Word};
use crate::profile::{is_adjustable, CODES_LEN, NO_SHORT_ADDRESS};

pub const IMAGE_LEN: usize = 426;
pub const WALK_OFF: u8 = 255;

pub type Image = [u8; IMAGE_LEN];

/// Every field of the image in its order. The scenes' colours and the banks stand for themselves.
pub const FIELDS: &[(&str, Form)] = &[
    ("short address", Byte),
    ("random address", Number(3)),
    ("type count", Byte),
    ("types", Bytes(CODES_LEN)),
    ("tc_capable", Flag),
    ("xy_capable", Flag),
    ("adjustable thresholds", Flag),
    ("holds_dtr0", Flag),
    ("indicator byte unimplemented", Flag),
    ("channels", Byte),
    ("physical minimum", Byte),
    ("enabled", Flag),
    ("level", Byte),
    ("last_active_level", Byte),
    ("min", Byte),
    ("max", Byte),
    ("limit_error", Flag),
    ("power-on level", Byte),
    ("power-on colour", Setting),
    ("system-failure level", Byte),
    ("system-failure colour", Setting),
    ("fade time", Byte),
    ("fade rate", Byte),
    ("extended fade", Byte),
    ("groups", Word),
    ("scene levels", Bytes(16)),
    ("lamp_failure", Flag),
    ("lamp_starting", Flag),
    ("drop_answer_permille", Word),
    ("forced_status", Byte),
    ("failure_status", Byte),
    ("memory_write_unstored", Flag),
    ("memory_write_holds_dtr0", Flag),
    ("reset_state", Flag),
    ("power_cycle_seen", Flag),
    ("initialise", Flag),
    ("withdrawn", Flag),
    ("identifying", Flag),
    ("dimming_curve", Byte),
    ("write_enabled", Flag),
    ("walk", Byte),
    ("pair open", Flag),
    ("pair frame", Word),
    ("active mode", Byte),
    ("active x", Word),
    ("active y", Word),
    ("active tc", Word),
    ("out of range", Flag),
    ("active levels", Bytes(6)),
    ("active control", Byte),
    ("pending mode", Byte),
    ("pending x", Word),
    ("pending y", Word),
    ("pending tc", Word),
    ("pending levels", Bytes(6)),
    ("pending control", Byte),
    ("stored coolest", Word),
    ("stored warmest", Word),
    ("physical coolest", Word),
    ("physical warmest", Word),
    ("report", Setting),
    ("gear_features", Byte),
    ("scene colour 0", Setting),
    ("scene colour 1", Setting),
    ("scene colour 2", Setting),
    ("scene colour 3", Setting),
    ("scene colour 4", Setting),
    ("scene colour 5", Setting),
    ("scene colour 6", Setting),
    ("scene colour 7", Setting),
    ("scene colour 8", Setting),
    ("scene colour 9", Setting),
    ("scene colour 10", Setting),
    ("scene colour 11", Setting),
    ("scene colour 12", Setting),
    ("scene colour 13", Setting),
    ("scene colour 14", Setting),
    ("scene colour 15", Setting),
    ("bank 0", Bytes(29)),
    ("bank 1", Bytes(17)),
];

/// The fields add up to the image.
const _: () = {
    let (mut sum, mut i) = (0, 0);
    while i < FIELDS.len() {
        sum += FIELDS[i].1.len();
        i += 1;
    }
    assert!(sum == IMAGE_LEN);
};

struct Writer {
    image: Image,
    at: usize,
}

impl Writer {
    fn bytes(&mut self, bytes: &[u8]) {
        self.image[self.at..self.at + bytes.len()].copy_from_slice(bytes);
        self.at += bytes.len();
    }

    fn words<const N: usize>(&mut self, words: [u16; N]) {
        for word in words {
            self.bytes(&word.to_be_bytes());
        }
    }

    fn flags<const N: usize>(&mut self, flags: [bool; N]) {
        self.bytes(&flags.map(u8::from));
    }

    fn setting(&mut self, setting: &ColourSetting) {
        self.bytes(&setting_bytes(setting));
    }
}

pub fn image(gear: &Gear) -> Image {
    let mut w = Writer { image: [0; IMAGE_LEN], at: 0 };
    write_profile(&mut w, gear);
    write_levels(&mut w, gear);
    write_stored(&mut w, gear);
    write_marks(&mut w, gear);
    write_colour(&mut w, gear);
    write_reports(&mut w, gear);
    w.bytes(gear.bank0());
    w.bytes(gear.bank1());
    assert!(w.at == IMAGE_LEN);
    w.image
}

fn write_profile(w: &mut Writer, gear: &Gear) {
    let spec = &gear.spec;
    let count = spec.device_types.len();
    let mut codes = [0; CODES_LEN];
    codes[..count].copy_from_slice(&spec.device_types);
    w.bytes(&[spec.short_address.unwrap_or(NO_SHORT_ADDRESS)]);
    w.bytes(&spec.random_address.to_be_bytes()[1..]);
    w.bytes(&[count as u8]);
    w.bytes(&codes);
    w.flags([spec.tc_capable, spec.xy_capable, is_adjustable(spec)]);
    w.flags([spec.holds_dtr0_on_unimplemented, spec.indicator_byte_unimplemented]);
    w.bytes(&[spec.rgbwaf_channels, spec.phm]);
}

fn write_levels(w: &mut Writer, gear: &Gear) {
    w.flags([gear.enabled]);
    w.bytes(&[gear.level, gear.last_active_level, gear.min_level, gear.max_level]);
    w.flags([gear.limit_error]);
}

fn write_stored(w: &mut Writer, gear: &Gear) {
    for stored in [&gear.power_on, &gear.system_failure] {
        w.bytes(&[stored.level]);
        w.setting(&stored.colour);
    }
    w.bytes(&[gear.fade_time, gear.fade_rate, gear.extended_fade_time]);
    w.words([gear.groups]);
    w.bytes(&gear.scenes);
}

fn write_marks(w: &mut Writer, gear: &Gear) {
    let faults = &gear.faults;
    w.flags([gear.lamp_failure, gear.lamp_starting]);
    w.words([faults.drop_answer_permille]);
    w.bytes(&[faults.forced_status, faults.failure_status]);
    w.flags([faults.memory_write_unstored, faults.memory_write_holds_dtr0]);
    w.flags([gear.reset_state, gear.power_cycle_seen, gear.initialise, gear.withdrawn, gear.identifying]);
    w.bytes(&[gear.dimming_curve]);
    w.flags([gear.write_enabled]);
    w.bytes(&[gear.walk().map_or(WALK_OFF, |cursor| cursor as u8)]);
    w.flags([gear.open_pair().is_some()]);
    w.words([gear.open_pair().unwrap_or(0)]);
}

fn write_colour(w: &mut Writer, gear: &Gear) {
    w.bytes(&[mode_byte(gear.color_mode)]);
    w.words([gear.color_x, gear.color_y, gear.color_ct]);
    w.flags([gear.out_of_range()]);
    w.bytes(&gear.rgbwaf.levels);
    w.bytes(&[gear.rgbwaf.control, mode_byte(gear.pending_mode)]);
    w.words([gear.pending_x, gear.pending_y, gear.pending_ct]);
    w.bytes(&gear.rgbwaf.pending_levels);
    w.bytes(&[gear.rgbwaf.pending_control]);
    w.words([gear.tc_coolest_limit, gear.tc_warmest_limit]);
    w.words([gear.spec.tc_coolest_mirek, gear.spec.tc_warmest_mirek]);
}

fn write_reports(w: &mut Writer, gear: &Gear) {
    w.setting(&gear.report);
    w.bytes(&[gear.gear_features]);
    for colour in &gear.scene_colours {
        w.setting(colour);
    }
}

const FACTOR: u64 = 1_000_003;
const MODULUS: u64 = 4_294_967_291;

/// What the byte at each place is multiplied with in the end: FACTOR to the bytes that follow.
const WEIGHTS: [u32; IMAGE_LEN] = {
    let mut weights = [1; IMAGE_LEN];
    let mut i = IMAGE_LEN - 1;
    while i > 0 {
        weights[i - 1] = (weights[i] as u64 * FACTOR % MODULUS) as u32;
        i -= 1;
    }
    weights
};

/// d starts at 0; for each byte b: d = (d * 1000003 + b + 1) mod 4294967291.
pub fn digest_by_definition(image: &Image) -> u32 {
    image.iter().fold(0, |d, byte| (d * FACTOR + u64::from(*byte) + 1) % MODULUS) as u32
}

/// The same number, quicker: one weighted sum, which stays below 2^49, and one division.
pub fn digest(image: &Image) -> u32 {
    let terms = image.iter().zip(&WEIGHTS);
    let sum: u64 = terms.map(|(byte, weight)| (u64::from(*byte) + 1) * u64::from(*weight)).sum();
    (sum % MODULUS) as u32
}

/// The part of the image that a field of this length takes, for walking over `FIELDS`.
pub fn take<'a>(bytes: &mut &'a [u8], form: Form) -> &'a [u8] {
    let (field, rest) = bytes.split_at(form.len());
    *bytes = rest;
    field
}
