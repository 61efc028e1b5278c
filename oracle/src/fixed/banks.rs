//! Memory banks: every offset read and written, the lock, the five setters, and what a reset rebuilds.

use super::gears::*;
use crate::calls::*;
use crate::kinds;
use crate::list::Recorder;
use crate::profile::{Profile, FLAG_HOLDS_DTR0, FLAG_NO_INDICATOR};

const BANKS: [u8; 4] = [0, 1, 2, 255];
const LOCK: u8 = 2;

pub fn record(r: &mut Recorder) {
    for flags in [0, FLAG_HOLDS_DTR0, FLAG_NO_INDICATOR, FLAG_HOLDS_DTR0 | FLAG_NO_INDICATOR] {
        r.call(Profile { flags, random_address: 0xFE_DCBA, ..led() }.call());
        let offsets = if flags == 0 || flags == 24 { 0..=255 } else { 0..=32 };
        for bank in BANKS {
            r.calls(offsets.clone().flat_map(|offset| [memory_read(bank, offset), advances(bank, offset)]));
        }
    }
    r.calls((0..=255).map(implements));
    writes(r);
    locks(r);
    faulty_writes(r);
    setters(r);
    last_offset(r);
    placed(r);
}

/// Every offset of every bank, with the lock open and closed.
fn writes(r: &mut Recorder) {
    r.call(everything().call());
    for lock in [0x55, 0x54] {
        r.call(set_lock(lock));
        for bank in BANKS {
            for offset in 0..=255u8 {
                r.call(memory_write(bank, offset, offset ^ bank ^ 0xA5));
                if bank == 1 && offset == LOCK {
                    r.call(set_lock(lock));
                }
            }
        }
    }
    r.calls((0..=16).map(|offset| memory_read(1, offset)));
}

/// The lock opened and closed by writes and by its setter.
fn locks(r: &mut Recorder) {
    for value in [0, 1, 0x54, 0x55, 0x56, 0xAA, 0xFE, 0xFF] {
        r.calls([memory_write(1, LOCK, value), memory_write(1, 3, value), memory_read(1, 3)]);
        r.calls([set_lock(value), memory_write(1, 16, value), memory_write(1, 17, value), memory_read(1, 16)]);
        r.calls([set_bank1(LOCK, value), memory_write(1, 9, value), memory_write(1, LOCK, 0x55)]);
    }
}

/// Writes that answer but are not stored; and with write enable on and off, which is not asked for.
fn faulty_writes(r: &mut Recorder) {
    for (unstored, holds) in [(true, false), (false, true), (true, true), (false, false)] {
        r.call(set_faults(1000, 0, 0, unstored, holds));
        for offset in [0, 1, 2, 3, 10, 16, 17, 255] {
            r.calls([set_lock(0x55), memory_write(1, offset, 0x66), memory_read(1, offset)]);
            r.calls([memory_write(0, offset, 0x77), memory_read(0, offset), advances(1, offset)]);
        }
    }
    r.calls([write(129, 0), memory_write(1, 5, 1), write(0, 0), memory_write(1, 5, 2)]);
}

fn setters(r: &mut Recorder) {
    r.call(Profile { flags: FLAG_HOLDS_DTR0, ..everything() }.call());
    r.calls((0..=255).map(|offset| set_bank1(offset, 255 - offset)));
    r.calls([0, 1, 2, 16, 17].map(|offset| memory_read(1, offset)));
    for last in [0, 1, 2, 3, 10, 25, 26, 27, 28, 29, 30, 254, 255] {
        r.call(set_last_offset(last));
        r.calls([0, 1, 2, 25, 26, 27, 28, 29, 30, 254, 255].map(|offset| memory_read(0, offset)));
        r.calls([last, last.wrapping_add(1)].map(|offset| advances(0, offset)));
    }
    for (units, index) in [(0, 0), (1, 0), (2, 1), (255, 254)] {
        r.calls([set_unit(units, index), memory_read(0, 25), memory_read(0, 26)]);
    }
    r.call(plain(kinds::CLEAR_IDENTIFICATION));
    r.calls((10..=19).map(|offset| memory_read(0, offset)));
    r.calls([write(32, 0), memory_read(0, 11), memory_read(0, 0), memory_read(1, LOCK)]);
}

/// Whatever is set at offset 0 of bank 1, it reads 16, and writing ends there.
fn last_offset(r: &mut Recorder) {
    r.call(Profile { flags: FLAG_HOLDS_DTR0 | FLAG_NO_INDICATOR, ..everything() }.call());
    for set in [0, 1, 2, 15, 16, 17, 255] {
        r.calls([set_bank1(0, set), memory_read(1, 0), advances(1, 0)]);
        r.calls([memory_write(1, 0, set ^ 1), memory_read(1, 0)]);
        r.calls([LOCK, 3, 16, 17].map(|offset| memory_write(1, offset, 0x55)));
    }
}

/// Bank bytes that no call can set, and that no other answer may depend on.
fn placed(r: &mut Recorder) {
    for (bank, length) in [(0, 29), (1, 17)] {
        for offset in 0..length {
            r.calls([place_bank_byte(bank, offset, offset ^ 0x3C), memory_read(bank, offset)]);
        }
    }
    r.calls((144..=196).map(query));
    r.call(write(32, 0));
}
