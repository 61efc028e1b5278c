//! The runner: the steps of a session, one after another on the Rust, and the lines that it writes.

use super::file::{lowest, read, read_part, Session};
use super::step::Step;
use crate::answer::{Answer, STEP_KIND_NOT_LISTED};
use crate::gear::Gear;
use crate::list::Run;
use crate::profile::Profile;
use std::fmt::Write;

/// The lines for an input of any length.
pub fn lines(input: &[u8]) -> String {
    match read(read_part(input)) {
        Ok(session) => session_lines(&session),
        Err(faults) => format!("bad {}\n", lowest(&faults)),
    }
}

fn session_lines(session: &Session) -> String {
    let mut text = String::new();
    let mut runner = Runner::new(&session.profile);
    for (index, step) in session.steps.iter().enumerate() {
        let _ = writeln!(text, "{} {}", index + 1, answer_text(runner.perform(*step)));
    }
    let gear = runner.gear();
    let _ = writeln!(text, "end {} {} {}", gear.level, gear.min_level, gear.max_level);
    text
}

fn answer_text(answer: Answer) -> String {
    match answer {
        Answer::Done => ".".to_string(),
        Answer::Value(value) => value.to_string(),
        Answer::None => "-".to_string(),
        Answer::NotCapable(_) => "~".to_string(),
        Answer::Refused(number) => format!("!{number}"),
        Answer::Bool(_) => unreachable!("no step asks for a yes or no"),
    }
}

/// The gear of a session, between two of its steps.
pub struct Runner(Run);

impl Runner {
    pub fn new(profile: &Profile) -> Self {
        let mut run = Run::new();
        let built = run.step(&profile.call());
        assert_eq!(built, Ok(Answer::Done), "a well formed file has a profile that is accepted");
        Runner(run)
    }

    pub fn gear(&self) -> &Gear {
        &self.0.gear
    }

    pub fn perform(&mut self, step: Step) -> Answer {
        match step.call() {
            Some(call) => self.0.step(&call).expect("a step places nothing"),
            None => STEP_KIND_NOT_LISTED,
        }
    }
}
