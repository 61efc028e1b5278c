//! Doors to the parts of gear.rs that are private there: the walk, the open pair, the out-of-range
//! mark, the two banks and the staging of a colour.

use super::{ColourSetting, Gear, BANK0_LEN, BANK1_LEN};

impl Gear {
    pub fn walk(&self) -> Option<usize> {
        self.device_type_walk
    }

    pub fn place_walk(&mut self, walk: Option<usize>) {
        self.device_type_walk = walk;
    }

    pub fn open_pair(&self) -> Option<u16> {
        self.pending_repeat
    }

    pub fn out_of_range(&self) -> bool {
        self.tc_out_of_range
    }

    pub fn place_out_of_range(&mut self, mark: bool) {
        self.tc_out_of_range = mark;
    }

    pub fn bank0(&self) -> &[u8; BANK0_LEN] {
        &self.banks.bank0
    }

    pub fn bank1(&self) -> &[u8; BANK1_LEN] {
        &self.banks.bank1
    }

    /// False where the bank has no such byte.
    pub fn place_bank_byte(&mut self, bank: u8, offset: u8, value: u8) -> bool {
        let bytes: &mut [u8] = match bank {
            0 => &mut self.banks.bank0,
            1 => &mut self.banks.bank1,
            _ => return false,
        };
        match bytes.get_mut(usize::from(offset)) {
            Some(byte) => *byte = value,
            None => return false,
        }
        true
    }

    /// Document 01, kind 8: "Staging is added: it does what `load_temporaries_from` does."
    pub fn stage(&mut self, setting: &ColourSetting) {
        self.load_temporaries_from(setting);
    }
}
