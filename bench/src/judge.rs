//! The two sides, what each is asked to do, and whether they do the same.

use crate::answer::Answer;
use crate::lean;
use dali_gear::Step;
use std::hint::black_box;

/// What is asked once a file's steps are done: the level that the lamp has now.
const LAST: [u8; 4] = [2, 160, 0, 0];

pub type Job = fn(&[u8], &mut [u8]);

pub fn job(side: &str, work: &str) -> Option<Job> {
    Some(match (side, work) {
        ("rust", "lines") => rust_lines,
        ("rust", "steps") => rust_steps,
        ("ours", "lines") => our_lines,
        ("ours", "steps") => our_steps,
        _ => return None,
    })
}

pub fn rust_lines(file: &[u8], out: &mut [u8]) {
    black_box(lean::run(black_box(file), out));
}

pub fn rust_steps(file: &[u8], _: &mut [u8]) {
    black_box(lean::ask(black_box(file), LAST));
}

pub fn our_lines(file: &[u8], out: &mut [u8]) {
    let _ = black_box(dali_gear::run(black_box(file), out));
}

pub fn our_steps(file: &[u8], _: &mut [u8]) {
    let [kind, a, b, c] = LAST;
    black_box(dali_gear::ask(black_box(file), Step(kind, a, b, c)));
}

/// The number of steps of a well formed file on which both sides write the same bytes and answer the same.
pub fn same(file: &[u8]) -> Result<usize, String> {
    let (mut rust, mut ours) = (vec![0; dali_gear::LINES_MAX], vec![0; dali_gear::LINES_MAX]);
    let end = lean::run(file, &mut rust).ok_or("the Rust side finds it malformed")?;
    let lines = dali_gear::run(file, &mut ours).map_err(|why| format!("ours does not run it: {why:?}"))?;
    if lines != &rust[..end] {
        return Err(first_difference(&rust[..end], lines));
    }
    let [kind, a, b, c] = LAST;
    let (last, our_last) = (lean::ask(file, LAST), dali_gear::ask(file, Step(kind, a, b, c)));
    match (last, our_last) {
        (Some(Answer::Value(value)), dali_gear::Answer::Value(other)) if value == other => {}
        _ => return Err(format!("asked for the level, the Rust answers {last:?} and ours {our_last:?}")),
    }
    Ok(lines.iter().filter(|byte| **byte == b'\n').count() - 1)
}

fn first_difference(rust: &[u8], ours: &[u8]) -> String {
    let same = rust.iter().zip(ours).take_while(|(one, other)| one == other).count();
    let line = rust[..same].iter().filter(|byte| **byte == b'\n').count() + 1;
    format!(
        "the Rust and ours write different bytes, first in line {line}, at byte {same} of {} and {}",
        rust.len(),
        ours.len()
    )
}
