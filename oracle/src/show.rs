//! Lists as text: each call by name, its answer, and the record field by field.

use crate::answer::{self, ANSWER_LEN};
use crate::call::Call;
use crate::image::{digest, image, take, Image, FIELDS};
use crate::kinds::{self, Form, QUERY, WRITE};
use crate::list::{Entry, Fault, Reader, Run, TAIL_LEN};
use dali2rust_domain::dali::pres::standard::StandardCommand;
use std::fmt::Write as _;
use std::io::{Read, Write};

pub struct Options {
    /// Show only the fields that the call changed.
    pub changed: bool,
    /// The first and the last call to show.
    pub first: u64,
    pub last: u64,
}

pub fn show(input: impl Read, out: &mut impl Write, options: &Options) -> Result<(), Fault> {
    let mut reader = Reader::new(input);
    let mut run = Run::new();
    let mut before = image(&run.gear);
    while let Some(entry) = reader.next_entry()? {
        let answer = run.step(&entry.call).map_err(|why| reader.malformed(why))?;
        let after = image(&run.gear);
        if (options.first..=options.last).contains(&run.number) {
            writeln!(out, "call {}: {}", run.number, call_text(&entry.call))?;
            writeln!(out, "  answer {answer}, digest {}", digest(&after))?;
            out.write_all(difference(&entry, &run.tail(answer)).as_bytes())?;
            out.write_all(record_text(&before, &after, options.changed).as_bytes())?;
        }
        before = after;
    }
    Ok(())
}

/// Name and arguments; for a write or query the command's name too.
pub fn call_text(call: &Call) -> String {
    let mut text = kinds::name(call.kind()).to_string();
    let mut bytes = &call.0[1..];
    for (name, form) in kinds::find(call.kind()).map_or(&[][..], |kind| kind.arguments) {
        let _ = write!(text, ", {name} {}", value_text(take(&mut bytes, *form), *form));
    }
    let command = match call.kind() {
        WRITE => StandardCommand::write(call.byte(1)),
        QUERY => StandardCommand::query(call.byte(1)),
        _ => return text,
    };
    let _ = match command {
        Some(command) => write!(text, " ({command:?})"),
        None => write!(text, " (not in the table)"),
    };
    text
}

/// What the list brought along, where it is filled in and differs from the Rust.
fn difference(entry: &Entry, tail: &[u8; TAIL_LEN]) -> String {
    if entry.tail == [0; TAIL_LEN] || entry.tail == *tail {
        return String::new();
    }
    let (answer, digest) = entry.tail.split_at(ANSWER_LEN);
    let mut text = String::from("  THE LIST SAYS: answer ");
    let _ = answer::write_bytes(&mut text, answer.try_into().unwrap());
    let _ = writeln!(text, ", digest {}", u32::from_be_bytes(digest.try_into().unwrap()));
    text
}

fn record_text(before: &Image, after: &Image, only_changed: bool) -> String {
    let mut text = String::new();
    let (mut before, mut after) = (&before[..], &after[..]);
    for (name, form) in FIELDS {
        let (old, new) = (take(&mut before, *form), take(&mut after, *form));
        let (old_text, new_text) = (value_text(old, *form), value_text(new, *form));
        let _ = match (only_changed, old == new) {
            (false, _) => writeln!(text, "  {name:<28} {new_text}"),
            (true, true) => Ok(()),
            (true, false) => writeln!(text, "  {name:<28} {old_text} -> {new_text}"),
        };
    }
    text
}

fn value_text(bytes: &[u8], form: Form) -> String {
    match form {
        Form::Flag => if bytes[0] == 0 { "no" } else { "yes" }.to_string(),
        Form::Byte | Form::Word | Form::Number(_) => number(bytes).to_string(),
        Form::Bytes(_) => bytes_text(bytes),
        Form::Setting => setting_text(bytes),
    }
}

fn number(bytes: &[u8]) -> u32 {
    bytes.iter().fold(0, |sum, byte| sum << 8 | u32::from(*byte))
}

fn bytes_text(bytes: &[u8]) -> String {
    let texts: Vec<String> = bytes.iter().map(u8::to_string).collect();
    format!("[{}]", texts.join(" "))
}

fn setting_text(bytes: &[u8]) -> String {
    let (x, y, tc) = (number(&bytes[1..3]), number(&bytes[3..5]), number(&bytes[5..7]));
    let levels = bytes_text(&bytes[7..13]);
    format!("type {} x {x} y {y} tc {tc} levels {levels} control {}", bytes[0], bytes[13])
}
