//! The lines of a run, written into a buffer: no allocation, no formatting machinery.

use crate::answer::Answer;

/// Writes a step's line at a place; the place behind it.
pub fn line(out: &mut [u8], at: usize, number: u32, answer: Answer) -> usize {
    let at = decimal(out, at, number);
    let at = put(out, at, [b' ']);
    let at = match answer {
        Answer::Done => put(out, at, [b'.']),
        Answer::Value(value) => decimal(out, at, value.into()),
        Answer::None => put(out, at, [b'-']),
        Answer::NotCapable(_) => put(out, at, [b'~']),
        Answer::Refused(number) => put(out, at, [b'!', b'0' + number]),
        Answer::Bool(_) => unreachable!("no step asks for a yes or no"),
    };
    put(out, at, [b'\n'])
}

/// The last line.
pub fn end(out: &mut [u8], at: usize, levels: [u8; 3]) -> usize {
    let at = put(out, at, *b"end");
    let write = |at, level: u8| {
        let at = put(out, at, [b' ']);
        decimal(out, at, level.into())
    };
    let at = levels.into_iter().fold(at, write);
    put(out, at, [b'\n'])
}

/// At most five digits, each by its own division by a constant, and one test of the buffer's end.
fn decimal(out: &mut [u8], at: usize, n: u32) -> usize {
    let digit = |power: u32| b'0' + (n / power % 10) as u8;
    match n {
        0..=9 => put(out, at, [digit(1)]),
        10..=99 => put(out, at, [digit(10), digit(1)]),
        100..=999 => put(out, at, [digit(100), digit(10), digit(1)]),
        1_000..=9_999 => put(out, at, [digit(1_000), digit(100), digit(10), digit(1)]),
        _ => put(out, at, [digit(10_000), digit(1_000), digit(100), digit(10), digit(1)]),
    }
}

fn put<const N: usize>(out: &mut [u8], at: usize, bytes: [u8; N]) -> usize {
    out[at..at + N].copy_from_slice(&bytes);
    at + N
}
