//! Session files from a seed: well formed ones whose steps get somewhere, and malformed ones of every sort.

mod damage;
mod draft;
mod every_id;
mod steps;
mod ways;

use crate::chance::Chance;
use crate::session::frames::write_frame;
use std::io::{self, Write};

/// Of so many files one asks for every colour value id.
const EVERY_ID_IN: u64 = 100;

/// Makes one file after another. Some ways of making a file take their cases in turn.
pub struct Generator {
    made: u64,
    every_id: every_id::EveryId,
    chance: Chance,
    cutting: ways::Cutting,
    pairs: ways::Pairs,
}

impl Generator {
    pub fn new(seed: u64) -> Self {
        Generator {
            made: 0,
            every_id: every_id::EveryId::new(seed),
            chance: Chance::new(seed),
            cutting: ways::Cutting::new(),
            pairs: ways::Pairs::new(),
        }
    }

    pub fn next_file(&mut self) -> Vec<u8> {
        self.made += 1;
        if self.made % EVERY_ID_IN == 0 {
            return self.every_id.next_file();
        }
        let way = self.chance.weighted(ways::WAYS);
        way(self)
    }
}

pub fn write_sessions(seed: u64, count: u64, out: &mut impl Write) -> io::Result<()> {
    let mut generator = Generator::new(seed);
    (0..count).try_for_each(|_| write_frame(out, &generator.next_file()))
}
