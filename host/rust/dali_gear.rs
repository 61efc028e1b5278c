//! A proved record of a DALI lighting gear, for programs in Rust.
//!
//! A session file holds a gear's profile and the steps sent to it. These functions judge a file, run it,
//! and ask the record that its steps leave. What each of them answers is proved for every input; this
//! file only carries arguments and answers over. It uses nothing of the standard library.
#![no_std]

/// A session file has at most so many bytes.
pub const FILE_MAX: usize = 16412;

/// A buffer of so many bytes is long enough for the lines of every file.
pub const LINES_MAX: usize = 45072;

/// Why a call was refused; `number` gives document 01's number.
#[derive(Clone, Copy, Debug, PartialEq, Eq)]
pub enum Refusal {
    /// Profile not accepted.
    Profile,
    /// Record not fit.
    Unfit,
    /// Byte not in the call's table, or step kind not listed.
    Byte,
    /// Group address above 15.
    Group,
    /// Session file malformed, with the offset of its lowest fault.
    File(usize),
}

impl Refusal {
    pub fn number(self) -> u32 {
        match self {
            Refusal::Profile => 1,
            Refusal::Unfit => 2,
            Refusal::Byte => 3,
            Refusal::Group => 4,
            Refusal::File(_) => 5,
        }
    }

    fn of(number: u32, detail: usize) -> Refusal {
        match number {
            1 => Refusal::Profile,
            2 => Refusal::Unfit,
            3 => Refusal::Byte,
            4 => Refusal::Group,
            5 => Refusal::File(detail),
            _ => unknown(number, detail),
        }
    }
}

/// What a gear may lack for a colour value.
#[derive(Clone, Copy, Debug, PartialEq, Eq)]
pub enum Capability {
    /// Colours by x and y.
    Xy,
    /// Colour temperatures.
    Tc,
    /// A colour channel, or more.
    Channels,
}

impl Capability {
    /// What a panel shows of a gear that lacks it.
    pub fn words(self) -> &'static str {
        match self {
            Capability::Xy => "this gear has no xy colour",
            Capability::Tc => "this gear has no colour temperature",
            Capability::Channels => "this gear has no colour channels",
        }
    }

    fn of(detail: usize) -> Capability {
        match detail {
            1 => Capability::Xy,
            2 => Capability::Tc,
            3 => Capability::Channels,
            _ => unknown(INCAPABLE, detail),
        }
    }
}

impl core::fmt::Display for Capability {
    fn fmt(&self, f: &mut core::fmt::Formatter) -> core::fmt::Result {
        f.write_str(self.words())
    }
}

/// What a step answers.
#[derive(Clone, Copy, Debug, PartialEq, Eq)]
pub enum Answer {
    Done,
    Value(u16),
    /// No value: no answer to give, or a colour value that no gear has.
    Nothing,
    /// A colour value that this gear can't have, and what it lacks.
    Incapable(Capability),
    Refused(Refusal),
}

/// Why a file was not run. Nothing is written then.
#[derive(Clone, Copy, Debug, PartialEq, Eq)]
pub enum NotRun {
    /// Refusal 5, with the offset of the file's lowest fault.
    Malformed(usize),
    /// The buffer is too short, with the bytes that it needs.
    Short(usize),
}

/// One step of a session: kind, a, b and c.
#[derive(Clone, Copy, Debug, PartialEq, Eq)]
pub struct Step(pub u8, pub u8, pub u8, pub u8);

const DONE: u32 = 0;
const MALFORMED: u32 = 5;
const VALUE: u32 = 16;
const NOTHING: u32 = 17;
const SHORT: u32 = 18;
const INCAPABLE: u32 = 19;

/// A code that these calls do not give, as a library of another version might: it stops the program, since any
/// answer that were made of it would be a wrong one.
fn unknown(code: u32, detail: usize) -> ! {
    panic!("the library gave code {code} with detail {detail}, which host/rust/dali_gear.rs does not know")
}

mod library {
    extern "C" {
        pub fn dali_gear_check(file: *const u8, file_len: usize, detail: &mut usize) -> u32;
        pub fn dali_gear_room(file: *const u8, file_len: usize) -> usize;
        pub fn dali_gear_run(
            file: *const u8,
            file_len: usize,
            out: *mut u8,
            out_len: usize,
            detail: &mut usize,
        ) -> u32;
        pub fn dali_gear_ask(
            file: *const u8,
            file_len: usize,
            kind: u8,
            a: u8,
            b: u8,
            c: u8,
            detail: &mut usize,
        ) -> u32;
    }
}

/// Judges a session file: the offset of its lowest fault where it is malformed.
pub fn check(file: &[u8]) -> Result<(), usize> {
    let mut detail = 0;
    // The pointers come from references that live through the call, with their own lengths.
    match unsafe { library::dali_gear_check(file.as_ptr(), file.len(), &mut detail) } {
        DONE => Ok(()),
        MALFORMED => Err(detail),
        code => unknown(code, detail),
    }
}

/// The bytes that a buffer needs for the lines of this file, whatever they come to: 16, and 11 more for each
/// step; for a malformed file 16.
pub fn room(file: &[u8]) -> usize {
    unsafe { library::dali_gear_room(file.as_ptr(), file.len()) }
}

/// Runs a session file, and gives the part of `out` that its lines fill. A malformed file is `Malformed`
/// however short `out` is: the file is judged first. Behind the lines, `out` stays as it was.
pub fn run<'a>(file: &[u8], out: &'a mut [u8]) -> Result<&'a [u8], NotRun> {
    let mut detail = 0;
    let code = unsafe {
        library::dali_gear_run(file.as_ptr(), file.len(), out.as_mut_ptr(), out.len(), &mut detail)
    };
    match code {
        DONE => Ok(&out[..detail]),
        MALFORMED => Err(NotRun::Malformed(detail)),
        SHORT => Err(NotRun::Short(detail)),
        _ => unknown(code, detail),
    }
}

/// Performs one more step on the record that the file's steps leave. The file stays as it is: to keep the
/// step, add it to the file.
///
/// A malformed file is `Refused(File(offset))`, whatever the step is. Else a kind above 12, and a byte that is
/// not listed in kinds 1 and 2, is `Refused(Byte)`; kinds 2 to 5 give `Value` or `Nothing`, kind 5 also
/// `Incapable`, and the others `Done`. No other refusal is given: the record of a well-formed file is fit, and
/// no step has a group address.
///
/// Kind 5 asks for a colour value. `Nothing` is an id that no gear has: a slip in the program that asks.
/// `Incapable` is an id that this gear's capabilities exclude: it is built so. Neither is a wiring fault.
pub fn ask(file: &[u8], step: Step) -> Answer {
    let mut detail = 0;
    let Step(kind, a, b, c) = step;
    let code = unsafe { library::dali_gear_ask(file.as_ptr(), file.len(), kind, a, b, c, &mut detail) };
    match code {
        DONE => Answer::Done,
        VALUE => Answer::Value(detail as u16),
        NOTHING => Answer::Nothing,
        INCAPABLE => Answer::Incapable(Capability::of(detail)),
        number => Answer::Refused(Refusal::of(number, detail)),
    }
}
