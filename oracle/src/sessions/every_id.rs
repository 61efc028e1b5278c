//! Sessions that ask for every colour value id, with each set of capabilities and each number of channels in turn.
//! They are drawn by a chance of their own: the other files, of which the bench takes some, are the same without them.

use super::draft::Draft;
use super::steps::every_id;
use crate::chance::Chance;
use crate::profile::{Profile, FLAG_TC, FLAG_XY};
use crate::random::profiles;

const TC_AND_XY: [u8; 4] = [0, FLAG_TC, FLAG_XY, FLAG_TC | FLAG_XY];
const CHANNEL_NUMBERS: usize = 7;

pub struct EveryId {
    chance: Chance,
    next: usize,
}

impl EveryId {
    pub fn new(seed: u64) -> Self {
        EveryId { chance: Chance::new(!seed), next: 0 }
    }

    pub fn next_file(&mut self) -> Vec<u8> {
        let profile = self.profile();
        Draft::of(profile, every_id(&mut self.chance)).bytes()
    }

    fn profile(&mut self) -> Profile {
        let mut profile = profiles::accepted(&mut self.chance);
        let case = self.next;
        self.next = (self.next + 1) % (TC_AND_XY.len() * CHANNEL_NUMBERS);
        profile.flags = profile.flags & !(FLAG_TC | FLAG_XY) | TC_AND_XY[case / CHANNEL_NUMBERS];
        profile.channels = (case % CHANNEL_NUMBERS) as u8;
        profile
    }
}
