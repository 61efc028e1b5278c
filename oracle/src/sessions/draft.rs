//! A session file in the making: its parts, each of which may be spoilt, and its bytes.

use super::steps::some_steps;
use crate::chance::Chance;
use crate::profile::{Profile, CODES_LEN, TYPES_MAX};
use crate::random::profiles;
use crate::session::file::{Field, PROFILE_COUNT};
use crate::session::step::Step;

pub struct Draft {
    pub type_count: u8,
    pub types: Vec<u8>,
    pub profile_count: u8,
    /// Without its types, which stand above.
    pub profile: Profile,
    pub step_count: u16,
    pub steps: Vec<Step>,
    pub surplus: Vec<u8>,
}

impl Draft {
    /// Well formed, with so many steps.
    pub fn sound(chance: &mut Chance, steps: usize) -> Self {
        let profile = profiles::for_new_gear(chance);
        let steps = some_steps(chance, &profile, steps);
        Draft::of(profile, steps)
    }

    /// Well formed, with the most types that a profile has.
    pub fn with_most_types(chance: &mut Chance, steps: usize) -> Self {
        let types: [u8; CODES_LEN] = std::array::from_fn(|_| chance.pick(&[6, 7, 8, 8, 1, 0, 255]));
        let profile = Profile { type_count: TYPES_MAX, types, ..profiles::accepted(chance) };
        let steps = some_steps(chance, &profile, steps);
        Draft::of(profile, steps)
    }

    /// Well formed, for a profile that is accepted.
    pub fn of(profile: Profile, steps: Vec<Step>) -> Self {
        Draft {
            type_count: profile.type_count,
            types: profile.codes().to_vec(),
            profile_count: PROFILE_COUNT,
            step_count: steps.len() as u16,
            steps,
            profile,
            surplus: Vec::new(),
        }
    }

    pub fn bytes(&self) -> Vec<u8> {
        let profile = &self.profile;
        let mut bytes = vec![self.type_count];
        bytes.extend(&self.types);
        bytes.extend([self.profile_count, profile.short_address]);
        bytes.extend(&profile.random_address.to_be_bytes()[1..]);
        bytes.extend([profile.flags, profile.channels]);
        bytes.extend(profile.coolest.to_be_bytes());
        bytes.extend(profile.warmest.to_be_bytes());
        bytes.push(profile.physical_minimum);
        bytes.extend(self.step_count.to_be_bytes());
        bytes.extend(self.steps.iter().flat_map(|step| step.0));
        bytes.extend(&self.surplus);
        bytes
    }

    /// Where the field begins.
    pub fn start(&self, field: Field) -> usize {
        let behind_types = match field {
            Field::TypeCount => return 0,
            Field::Types => return 1,
            Field::ProfileCount => 0,
            Field::ShortAddress => 1,
            Field::RandomAddress => 2,
            Field::Flags => 5,
            Field::Channels => 6,
            Field::Coolest => 7,
            Field::Warmest => 9,
            Field::PhysicalMinimum => 11,
            Field::StepCount => 12,
            Field::Steps => 14,
        };
        1 + self.types.len() + behind_types
    }
}
