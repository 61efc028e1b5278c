//! A session file: its fields in their order, what makes it malformed, and what it says where it is not.

use super::step::{Step, STEP_LEN};
use crate::profile::{Profile, CODES_LEN, NO_SHORT_ADDRESS, TYPES_MAX};

/// What the program reads of its input. The longest well formed file is one byte shorter.
pub const BUFFER_LEN: usize = 16_413;
pub const STEPS_MAX: u32 = 4_096;
/// What the count byte of the second section has to say.
pub const PROFILE_COUNT: u8 = 11;

#[derive(Clone, Copy, PartialEq, Eq, PartialOrd, Ord, Debug)]
pub enum Field {
    TypeCount,
    Types,
    ProfileCount,
    ShortAddress,
    RandomAddress,
    Flags,
    Channels,
    Coolest,
    Warmest,
    PhysicalMinimum,
    StepCount,
    Steps,
}

use Field::*;

impl Field {
    /// In the order of the file.
    pub const ALL: [Field; 12] = [
        TypeCount,
        Types,
        ProfileCount,
        ShortAddress,
        RandomAddress,
        Flags,
        Channels,
        Coolest,
        Warmest,
        PhysicalMinimum,
        StepCount,
        Steps,
    ];

    pub fn name(self) -> &'static str {
        match self {
            TypeCount => "type count",
            Types => "types",
            ProfileCount => "profile count",
            ShortAddress => "short address",
            RandomAddress => "random address",
            Flags => "flags",
            Channels => "channels",
            Coolest => "coolest",
            Warmest => "warmest",
            PhysicalMinimum => "physical minimum",
            StepCount => "step count",
            Steps => "steps",
        }
    }
}

#[derive(Clone, Copy, PartialEq, Eq, Debug)]
pub enum Trouble {
    /// The file ends before the field does.
    Missing(Field),
    OutOfRange(Field),
    Surplus,
}

#[derive(Clone, Copy, Debug)]
pub struct Fault {
    pub trouble: Trouble,
    /// Where the field begins that is missing or out of range, or the surplus.
    pub start: usize,
    /// The byte that document 01 counts: behind `start` only where a part of the field is there.
    pub offset: usize,
}

/// What a well formed file says.
pub struct Session {
    pub profile: Profile,
    pub steps: Vec<Step>,
}

/// What of an input the program looks at.
pub fn read_part(input: &[u8]) -> &[u8] {
    &input[..input.len().min(BUFFER_LEN)]
}

/// The session, or every fault in the order of the file. Nothing behind a count out of range has a
/// place of its own, so that such a fault is the last.
pub fn read(file: &[u8]) -> Result<Session, Vec<Fault>> {
    let mut reading = Reading { file, at: 0, faults: Vec::new() };
    match reading.whole_file() {
        Some(session) if reading.faults.is_empty() => Ok(session),
        _ => Err(reading.faults),
    }
}

/// Document 01: "The offset in refusal 5 is the lowest of: ...".
pub fn lowest(faults: &[Fault]) -> usize {
    faults.iter().map(|fault| fault.offset).min().expect("a malformed file has a fault")
}

struct Reading<'a> {
    file: &'a [u8],
    at: usize,
    faults: Vec<Fault>,
}

impl<'a> Reading<'a> {
    fn whole_file(&mut self) -> Option<Session> {
        let types = self.types()?;
        let profile = self.profile(types)?;
        let steps = self.steps()?;
        if self.at < self.file.len() {
            self.fault(Trouble::Surplus, self.at, self.at);
        }
        Some(Session { profile, steps })
    }

    fn types(&mut self) -> Option<&'a [u8]> {
        let count = self.count(TypeCount, 1, |count| count <= TYPES_MAX.into())?;
        self.bytes(Types, count)
    }

    fn profile(&mut self, types: &[u8]) -> Option<Profile> {
        self.count(ProfileCount, 1, |count| count == PROFILE_COUNT.into())?;
        let short_address = self.number(ShortAddress, 1, |short| short <= 63 || short == NO_SHORT_ADDRESS.into())?;
        let random_address = self.number(RandomAddress, 3, |_| true)?;
        let flags = self.number(Flags, 1, |flags| flags < 1 << 5)?;
        let channels = self.number(Channels, 1, |channels| channels <= 6)?;
        let coolest = self.number(Coolest, 2, |_| true)?;
        let warmest = self.number(Warmest, 2, |warmest| coolest <= warmest && warmest < 65_535)?;
        let minimum = self.number(PhysicalMinimum, 1, |minimum| (1..=254).contains(&minimum))?;
        let mut codes = [0; CODES_LEN];
        codes[..types.len()].copy_from_slice(types);
        Some(Profile {
            type_count: types.len() as u8,
            types: codes,
            short_address: short_address as u8,
            random_address,
            flags: flags as u8,
            channels: channels as u8,
            coolest: coolest as u16,
            warmest: warmest as u16,
            physical_minimum: minimum as u8,
        })
    }

    fn steps(&mut self) -> Option<Vec<Step>> {
        let count = self.count(StepCount, 2, |count| count <= STEPS_MAX)?;
        let bytes = self.bytes(Steps, count * STEP_LEN)?;
        Some(bytes.chunks_exact(STEP_LEN).map(|step| Step(step.try_into().unwrap())).collect())
    }

    fn fault(&mut self, trouble: Trouble, start: usize, offset: usize) {
        self.faults.push(Fault { trouble, start, offset });
    }

    /// None where the file ends before the field does: then there is nothing to judge.
    fn bytes(&mut self, field: Field, length: usize) -> Option<&'a [u8]> {
        let Some(bytes) = self.file.get(self.at..self.at + length) else {
            self.fault(Trouble::Missing(field), self.at, self.file.len());
            return None;
        };
        self.at += length;
        Some(bytes)
    }

    /// A number, high byte first. Where it is out of range, the reading goes on all the same.
    fn number(&mut self, field: Field, length: usize, in_range: impl Fn(u32) -> bool) -> Option<u32> {
        let start = self.at;
        let bytes = self.bytes(field, length)?;
        let number = bytes.iter().fold(0, |sum, byte| sum << 8 | u32::from(*byte));
        if !in_range(number) {
            self.fault(Trouble::OutOfRange(field), start, start);
        }
        Some(number)
    }

    /// A number that says how much follows. Where it is out of range, the reading ends.
    fn count(&mut self, field: Field, length: usize, in_range: impl Fn(u32) -> bool) -> Option<usize> {
        let count = self.number(field, length, &in_range)?;
        in_range(count).then_some(count as usize)
    }
}
