//! Counts of steps: their kinds, with the answers, the states of the record and the bytes that are ignored.

use super::Watch;
use crate::answer::{Answer, STEP_KIND_NOT_LISTED};
use crate::coverage::grid::{names, no_yes, Axis, Grid};
use crate::gear::{ColorMode, Gear};
use crate::session::step::*;

const DONE: usize = 0;
const NUMBER: usize = 1;
const NONE: usize = 2;
const NOT_CAPABLE: usize = 3;
const REFUSED_3: usize = 4;
const ANSWERS: [&str; 6] = [".", "a number", "-", "~", "!3", "another refusal"];

/// Each kind by name, the answers that it gives and its bytes that are ignored. The last stands for
/// every kind that is not listed.
type Kind = (&'static str, &'static [usize], &'static [usize]);

const KINDS: [Kind; LISTED_KINDS + 1] = [
    ("0 arc power", &[DONE], &[2, 3]),
    ("1 write", &[DONE, REFUSED_3], &[3]),
    ("2 query", &[NUMBER, NONE, REFUSED_3], &[2, 3]),
    ("3 memory read", &[NUMBER, NONE], &[3]),
    ("4 memory write", &[NUMBER, NONE], &[]),
    ("5 colour value", &[NUMBER, NONE, NOT_CAPABLE], &[2, 3]),
    ("6 Tc limit", &[DONE], &[]),
    ("7 Tc step", &[DONE], &[2, 3]),
    ("8 stage Tc", &[DONE], &[1]),
    ("9 activate", &[DONE], &[1, 2, 3]),
    ("10 power cycle", &[DONE], &[1, 2, 3]),
    ("11 copy report", &[DONE], &[1, 2, 3]),
    ("12 features", &[DONE], &[2, 3]),
    ("not listed", &[REFUSED_3], &[1, 2, 3]),
];

type State = (&'static str, fn(&Gear) -> bool);

const STATES: &[State] = &[
    ("walk on", |gear| gear.walk().is_some()),
    ("activation off", |gear| !gear.automatic_activation()),
    ("colour staged", |gear| gear.pending_mode != ColorMode::None),
    ("Tc active", |gear| gear.color_mode == ColorMode::Cct),
    ("limit error", |gear| gear.limit_error),
    ("level outside min..max", |gear| gear.level > 0 && !(gear.min_level..=gear.max_level).contains(&gear.level)),
];

pub struct Steps {
    answers: Grid,
    states: Grid,
    ignored: Grid,
}

fn place(step: Step) -> usize {
    usize::from(step.kind()).min(LISTED_KINDS)
}

fn kind_names() -> Axis {
    KINDS.iter().map(|(name, _, _)| name.to_string()).collect()
}

impl Steps {
    pub fn new() -> Self {
        let states: Axis = STATES.iter().map(|(name, _)| name.to_string()).collect();
        Steps {
            answers: answers_grid(),
            states: Grid::new("each kind of step in each state", [kind_names(), states, no_yes()]),
            ignored: ignored_grid(),
        }
    }
}

fn answers_grid() -> Grid {
    let mut grid = Grid::new("steps by kind and answer", [kind_names(), names(&ANSWERS)]);
    for (kind, (_, answers, _)) in KINDS.iter().enumerate() {
        (0..ANSWERS.len()).filter(|answer| !answers.contains(answer)).for_each(|answer| grid.excuse(&[kind, answer]));
    }
    grid
}

fn ignored_grid() -> Grid {
    let mut grid = Grid::new("bytes that a kind ignores", [kind_names(), names(&["all 0", "not all 0"])]);
    for (kind, (_, _, ignored)) in KINDS.iter().enumerate() {
        if ignored.is_empty() {
            (0..2).for_each(|some| grid.excuse(&[kind, some]));
        }
    }
    grid
}

fn answer_place(answer: Answer) -> usize {
    match answer {
        Answer::Done => DONE,
        Answer::Value(_) => NUMBER,
        Answer::None => NONE,
        Answer::NotCapable(_) => NOT_CAPABLE,
        STEP_KIND_NOT_LISTED => REFUSED_3,
        _ => REFUSED_3 + 1,
    }
}

impl Watch for Steps {
    fn before(&mut self, gear: &Gear, step: Step) {
        let kind = place(step);
        for (state, (_, holds)) in STATES.iter().enumerate() {
            self.states.hit(&[kind, state, holds(gear).into()]);
        }
        let (_, _, ignored) = KINDS[kind];
        if !ignored.is_empty() {
            let some = ignored.iter().any(|byte| step.0[*byte] != 0);
            self.ignored.hit(&[kind, some.into()]);
        }
    }

    fn after(&mut self, _gear: &Gear, step: Step, answer: Answer) {
        self.answers.hit(&[place(step), answer_place(answer)]);
    }

    fn grids(&self) -> Vec<&Grid> {
        vec![&self.answers, &self.states, &self.ignored]
    }
}
