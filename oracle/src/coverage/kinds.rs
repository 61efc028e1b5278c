//! Counts of kinds and answers, and of each kind in the states that calls might overlook.

use super::grid::{names, no_yes, Axis, Grid};
use super::Watch;
use crate::answer::Answer;
use crate::call::Call;
use crate::gear::{ColorMode, Gear};
use crate::kinds::{is_placing, Outcome, KINDS};

const TAGS: [&str; 5] = ["done", "value", "none", "refused", "not capable"];
const OUTCOMES: [Outcome; 7] =
    [Outcome::Done, Outcome::Value, Outcome::No, Outcome::Yes, Outcome::None, Outcome::Refused, Outcome::NotCapable];

type State = (&'static str, fn(&Gear) -> bool);

const STATES: &[State] = &[
    ("walk on", |gear| gear.walk().is_some()),
    ("pair open", |gear| gear.open_pair().is_some()),
    ("activation off", |gear| !gear.automatic_activation()),
    ("colour staged", |gear| gear.pending_mode != ColorMode::None),
    ("not enabled", |gear| !gear.enabled),
];

pub struct Kinds {
    kinds: Grid,
    tags: Grid,
    outcomes: Grid,
    states: Grid,
}

fn index(call: &Call) -> usize {
    KINDS.iter().position(|kind| kind.number == call.kind()).expect("a known kind")
}

impl Kinds {
    pub fn new() -> Self {
        let kinds: Axis = KINDS.iter().map(|kind| format!("{:>2} {}", kind.number, kind.name)).collect();
        Kinds {
            kinds: Grid::new("call kinds", [kinds.clone()]),
            tags: Grid::new("answers", [names(&TAGS)]),
            outcomes: outcomes_grid(kinds.clone()),
            states: states_grid(kinds),
        }
    }
}

/// A kind has to give the answers that are its own.
fn outcomes_grid(kinds: Axis) -> Grid {
    let outcomes: Axis = OUTCOMES.iter().map(|outcome| format!("{outcome:?}")).collect();
    let mut grid = Grid::new("answers of each kind", [kinds, outcomes]);
    for (k, kind) in KINDS.iter().enumerate() {
        let foreign = (0..OUTCOMES.len()).filter(|o| !kind.outcomes.contains(&OUTCOMES[*o]));
        foreign.for_each(|o| grid.excuse(&[k, o]));
    }
    grid
}

/// Every call of the record in every state; placing is none, so it need not be there.
fn states_grid(kinds: Axis) -> Grid {
    let states: Axis = STATES.iter().map(|(name, _)| name.to_string()).collect();
    let mut grid = Grid::new("each kind in each state", [kinds, states, no_yes()]);
    for placing in (0..KINDS.len()).filter(|k| is_placing(KINDS[*k].number)) {
        (0..STATES.len()).for_each(|state| (0..2).for_each(|holds| grid.excuse(&[placing, state, holds])));
    }
    grid
}

impl Watch for Kinds {
    fn before(&mut self, gear: &Gear, call: &Call) {
        let kind = index(call);
        self.kinds.hit(&[kind]);
        for (state, (_, holds)) in STATES.iter().enumerate() {
            self.states.hit(&[kind, state, holds(gear).into()]);
        }
    }

    fn after(&mut self, _gear: &Gear, call: &Call, answer: Answer) {
        self.tags.hit(&[answer.bytes()[0].into()]);
        let outcome = OUTCOMES.iter().position(|outcome| *outcome == answer.outcome());
        self.outcomes.hit(&[index(call), outcome.expect("a known outcome")]);
    }

    fn grids(&self) -> Vec<&Grid> {
        vec![&self.kinds, &self.tags, &self.outcomes, &self.states]
    }
}
