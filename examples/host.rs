//! A host in Rust: runs a session file, prints its lines, and asks the record that its steps leave.
use dali_gear::{Answer, NotRun, Step};
use std::io::{self, Read, Write};
use std::process::ExitCode;

/// QUERY ACTUAL LEVEL (part 102), as a step of a session.
const ACTUAL_LEVEL: Step = Step(2, 160, 0, 0);

/// The colour value 'colour temperature' (part 209), as a step of a session; it is the mask while the lamp has none.
const COLOUR_TEMPERATURE: Step = Step(5, 2, 0, 0);
const MASK: u16 = 65535;

fn show_level(file: &[u8]) {
    if let Answer::Value(level) = dali_gear::ask(file, ACTUAL_LEVEL) {
        println!("the lamp is at level {level}");
    }
}

fn show_colour_temperature(file: &[u8]) {
    match dali_gear::ask(file, COLOUR_TEMPERATURE) {
        Answer::Incapable(lacking) => println!("{lacking}"),
        Answer::Value(MASK) => println!("no colour temperature is active"),
        Answer::Value(tc) => println!("the colour temperature is {tc} mirek"),
        _ => {}
    }
}

fn session(file: &[u8]) -> io::Result<ExitCode> {
    let mut lines = vec![0; dali_gear::room(file)];
    match dali_gear::run(file, &mut lines) {
        Ok(text) => io::stdout().write_all(text)?,
        Err(NotRun::Malformed(offset)) => {
            eprintln!("host: refusal 5: the file has a fault at byte {offset}");
            return Ok(ExitCode::FAILURE);
        }
        Err(NotRun::Short(wanted)) => unreachable!("room answered less than {wanted} bytes"),
    }
    show_level(file);
    show_colour_temperature(file);
    Ok(ExitCode::SUCCESS)
}

fn main() -> io::Result<ExitCode> {
    let mut file = Vec::new();
    // One byte more than the longest file, so that a longer one is seen.
    io::stdin().take(dali_gear::FILE_MAX as u64 + 1).read_to_end(&mut file)?;
    session(&file)
}
