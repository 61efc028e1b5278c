//! Random lists: calls drawn by weight, alone or in short plans, with arguments that fit the record.

mod acts;
mod placings;
pub mod profiles;
mod session_acts;
mod values;

use crate::call::Call;
use crate::chance::Chance;
use crate::gear::Gear;
use acts::Act;
use std::collections::VecDeque;

/// What an act draws from, and where it leaves its calls. A placing call looks at the record, so it
/// comes first in its plan.
pub struct Plan<'a> {
    chance: &'a mut Chance,
    gear: &'a Gear,
    calls: &'a mut VecDeque<Call>,
}

impl Plan<'_> {
    fn add(&mut self, call: Call) {
        self.calls.push_back(call);
    }
}

pub struct Generator {
    chance: Chance,
    acts: Vec<(u32, Act)>,
    planned: VecDeque<Call>,
}

impl Generator {
    /// All acts: now and then a reset, a power cycle or a new gear.
    pub fn new(seed: u64) -> Self {
        Generator::with(seed, [acts::ONGOING, acts::RENEWING].concat())
    }

    /// Never a reset, power cycle or new gear, so that a record gets far from fresh.
    pub fn ongoing(seed: u64) -> Self {
        Generator::with(seed, acts::ONGOING.to_vec())
    }

    /// For the steps of a session, which may be few: more of what shows something by itself.
    pub fn for_sessions(seed: u64) -> Self {
        Generator::with(seed, [acts::ONGOING, acts::RENEWING, session_acts::SHOWING].concat())
    }

    fn with(seed: u64, acts: Vec<(u32, Act)>) -> Self {
        Generator { chance: Chance::new(seed), acts, planned: VecDeque::new() }
    }

    /// The call that a list begins with.
    pub fn first(&mut self) -> Call {
        profiles::accepted(&mut self.chance).call()
    }

    pub fn next(&mut self, gear: &Gear) -> Call {
        loop {
            if let Some(call) = self.planned.pop_front() {
                return call;
            }
            let act = self.chance.weighted(&self.acts);
            act(&mut Plan { chance: &mut self.chance, gear, calls: &mut self.planned });
        }
    }
}
