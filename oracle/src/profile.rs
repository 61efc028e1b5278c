//! The profile of a gear: its bytes in a `new` call, when document 01 accepts it, and its GearSpec.

use crate::call::{high, low, Call};
use crate::gear::{Gear, GearSpec};
use crate::kinds;
use dali2rust_domain::dali::devices::dt7_switching::FEATURE_ADJUSTABLE_THRESHOLDS;

pub const TYPES_MAX: u8 = 13;
pub const CODES_LEN: usize = 16;
pub const NO_SHORT_ADDRESS: u8 = 255;

#[derive(Clone)]
pub struct Profile {
    pub type_count: u8,
    pub types: [u8; CODES_LEN],
    pub short_address: u8,
    pub random_address: u32,
    pub flags: u8,
    pub channels: u8,
    pub coolest: u16,
    pub warmest: u16,
    pub physical_minimum: u8,
}

pub const FLAG_TC: u8 = 1 << 0;
pub const FLAG_XY: u8 = 1 << 1;
pub const FLAG_ADJUSTABLE: u8 = 1 << 2;
pub const FLAG_HOLDS_DTR0: u8 = 1 << 3;
pub const FLAG_NO_INDICATOR: u8 = 1 << 4;

impl Profile {
    /// A plain gear of these types: address 5, random address 0x123456, Tc 153 to 400.
    pub fn of(types: &[u8]) -> Self {
        let mut codes = [0; CODES_LEN];
        codes[..types.len()].copy_from_slice(types);
        Profile {
            type_count: types.len() as u8,
            types: codes,
            short_address: 5,
            random_address: 0x12_3456,
            flags: 0,
            channels: 0,
            coolest: 153,
            warmest: 400,
            physical_minimum: 1,
        }
    }

    pub fn from_call(call: &Call) -> Self {
        Profile {
            type_count: call.byte(1),
            types: std::array::from_fn(|i| call.byte(2 + i)),
            short_address: call.byte(18),
            random_address: u32::from(call.word(19)) << 16 | u32::from(call.word(21)),
            flags: call.byte(23),
            channels: call.byte(24),
            coolest: call.word(25),
            warmest: call.word(27),
            physical_minimum: call.byte(29),
        }
    }

    pub fn call(&self) -> Call {
        let mut call = Call::new(kinds::NEW, &[self.type_count]);
        call.0[2..18].copy_from_slice(&self.types);
        call.0[18] = self.short_address;
        call.0[19..23].copy_from_slice(&self.random_address.to_be_bytes());
        let rest = [
            self.flags,
            self.channels,
            high(self.coolest),
            low(self.coolest),
            high(self.warmest),
            low(self.warmest),
            self.physical_minimum,
        ];
        call.0[23..30].copy_from_slice(&rest);
        call
    }

    /// Document 01: "A profile is accepted exactly when: ...".
    pub fn accepted(&self) -> bool {
        self.type_count <= TYPES_MAX
            && self.channels <= 6
            && (self.short_address <= 63 || self.short_address == NO_SHORT_ADDRESS)
            && self.random_address <= 16_777_215
            && (1..=254).contains(&self.physical_minimum)
            && self.coolest <= self.warmest
            && self.warmest < 65_535
    }

    pub fn codes(&self) -> &[u8] {
        &self.types[..usize::from(self.type_count)]
    }

    fn has(&self, flag: u8) -> bool {
        self.flags & flag != 0
    }

    /// For accepted profiles. What document 01 leaves behind is off, as in `GearSpec::dt6`.
    pub fn spec(&self) -> GearSpec {
        let short = Some(self.short_address).filter(|short| *short != NO_SHORT_ADDRESS);
        GearSpec {
            device_types: self.codes().to_vec(),
            tc_capable: self.has(FLAG_TC),
            xy_capable: self.has(FLAG_XY),
            rgbwaf_channels: self.channels,
            tc_coolest_mirek: self.coolest,
            tc_warmest_mirek: self.warmest,
            phm: self.physical_minimum,
            holds_dtr0_on_unimplemented: self.has(FLAG_HOLDS_DTR0),
            indicator_byte_unimplemented: self.has(FLAG_NO_INDICATOR),
            switching_features: if self.has(FLAG_ADJUSTABLE) { FEATURE_ADJUSTABLE_THRESHOLDS } else { 0 },
            ..GearSpec::dt6(short, self.random_address)
        }
    }
}

/// The record before the first call of a list.
pub fn first_gear() -> Gear {
    Gear::new(GearSpec::dt6(None, 0))
}

pub fn is_adjustable(spec: &GearSpec) -> bool {
    spec.switching_features & FEATURE_ADJUSTABLE_THRESHOLDS != 0
}
