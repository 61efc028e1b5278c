//! Nanoseconds per step, both sides in turn, and the ratio of each turn.

use crate::judge::{our_lines, our_steps, rust_lines, rust_steps, Job};
use std::time::Instant;

/// A turn takes about so long, so that the clock's own cost does not show.
const TURN_NANOSECONDS: u128 = 20_000_000;

pub fn time(files: &[Vec<u8>], repeats: usize) {
    let steps = files.iter().map(|file| (file.len() - 15 - usize::from(file[0])) / 4).sum();
    for (work, rust, ours) in [("lines", rust_lines as Job, our_lines as Job), ("steps", rust_steps, our_steps)] {
        let turns = Turns::taken(files, steps, rust, ours, repeats);
        println!("{work} {}", turns.words());
    }
}

struct Turns {
    rust: Vec<f64>,
    ours: Vec<f64>,
    ratios: Vec<f64>,
}

impl Turns {
    fn taken(files: &[Vec<u8>], steps: usize, rust: Job, ours: Job, repeats: usize) -> Self {
        let mut out = vec![0; dali_gear::LINES_MAX];
        let rounds = rounds(files, rust, &mut out);
        let mut turns = Turns { rust: Vec::new(), ours: Vec::new(), ratios: Vec::new() };
        for _ in 0..repeats {
            let one = nanoseconds(files, rust, &mut out, rounds) / (rounds * steps) as f64;
            let other = nanoseconds(files, ours, &mut out, rounds) / (rounds * steps) as f64;
            turns.rust.push(one);
            turns.ours.push(other);
            turns.ratios.push(other / one);
        }
        turns
    }

    /// Medians of both sides; the least, the median and the greatest ratio.
    fn words(mut self) -> String {
        let ratio = median(&mut self.ratios);
        let (least, most) = (self.ratios[0], self.ratios[self.ratios.len() - 1]);
        format!("{:.1} {:.1} {least:.2} {ratio:.2} {most:.2}", median(&mut self.rust), median(&mut self.ours))
    }
}

/// How many times the Rust has to go over the files for a turn to be long enough. The first time warms up.
fn rounds(files: &[Vec<u8>], job: Job, out: &mut [u8]) -> usize {
    nanoseconds(files, job, out, 1);
    let once = nanoseconds(files, job, out, 1) as u128;
    (TURN_NANOSECONDS / once.max(1)) as usize + 1
}

fn nanoseconds(files: &[Vec<u8>], job: Job, out: &mut [u8], rounds: usize) -> f64 {
    let start = Instant::now();
    for _ in 0..rounds {
        files.iter().for_each(|file| job(file, out));
    }
    start.elapsed().as_nanos() as f64
}

/// Sorts the numbers, too.
fn median(numbers: &mut [f64]) -> f64 {
    numbers.sort_by(f64::total_cmp);
    numbers[numbers.len() / 2]
}
