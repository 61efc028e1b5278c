//! A call of a list: 32 bytes, the kind and its arguments, and the functions that write and read it.

use crate::gear::ColourSetting;

pub const CALL_LEN: usize = 32;
pub const SETTING_LEN: usize = 14;

#[derive(Clone, Copy)]
pub struct Call(pub [u8; CALL_LEN]);

impl Call {
    pub fn new(kind: u8, arguments: &[u8]) -> Self {
        let mut bytes = [0; CALL_LEN];
        bytes[0] = kind;
        bytes[1..=arguments.len()].copy_from_slice(arguments);
        Call(bytes)
    }

    /// A call whose arguments are some bytes and then a ColourSetting.
    pub fn with_setting(kind: u8, before: &[u8], setting: &ColourSetting) -> Self {
        let mut call = Call::new(kind, before);
        let start = 1 + before.len();
        call.0[start..start + SETTING_LEN].copy_from_slice(&setting_bytes(setting));
        call
    }

    pub fn kind(&self) -> u8 {
        self.0[0]
    }

    /// Argument a1 is `byte(1)`.
    pub fn byte(&self, n: usize) -> u8 {
        self.0[n]
    }

    pub fn flag(&self, n: usize) -> bool {
        self.0[n] != 0
    }

    /// Two bytes, the high one first.
    pub fn word(&self, n: usize) -> u16 {
        u16::from_be_bytes([self.0[n], self.0[n + 1]])
    }

    pub fn levels(&self, n: usize) -> [u8; 6] {
        std::array::from_fn(|i| self.0[n + i])
    }

    pub fn setting(&self, n: usize) -> ColourSetting {
        ColourSetting {
            colour_type: self.byte(n),
            x: self.word(n + 1),
            y: self.word(n + 3),
            tc: self.word(n + 5),
            levels: self.levels(n + 7),
            control: self.byte(n + 13),
        }
    }
}

pub fn high(word: u16) -> u8 {
    (word >> 8) as u8
}

pub fn low(word: u16) -> u8 {
    word as u8
}

/// The 14 bytes of a ColourSetting: type, x, y, tc, six levels, control.
pub fn setting_bytes(setting: &ColourSetting) -> [u8; SETTING_LEN] {
    let mut bytes = [0; SETTING_LEN];
    bytes[0] = setting.colour_type;
    bytes[1..3].copy_from_slice(&setting.x.to_be_bytes());
    bytes[3..5].copy_from_slice(&setting.y.to_be_bytes());
    bytes[5..7].copy_from_slice(&setting.tc.to_be_bytes());
    bytes[7..13].copy_from_slice(&setting.levels);
    bytes[13] = setting.control;
    bytes
}
