//! The ways in which a file is made, each with its weight.

use super::damage::{behind, cut_bad_field, cut_within, Spoil, SPOILS};
use super::draft::Draft;
use super::Generator;
use crate::chance::Chance;
use crate::session::file::{Field, BUFFER_LEN, STEPS_MAX};

type Way = fn(&mut Generator) -> Vec<u8>;

pub const WAYS: &[(u32, Way)] = &[
    (430, sound),
    (15, longest),
    (120, cut_in_turn),
    (40, cut_anywhere),
    (20, cut_inside_bad_field),
    (110, one_field_spoilt),
    (120, two_faults),
    (25, many_faults),
    (60, surplus),
    (10, too_many_steps),
    (30, few_bytes_changed),
    (20, any_bytes),
];

const MOST_STEPS: usize = STEPS_MAX as usize;

fn sound(g: &mut Generator) -> Vec<u8> {
    let steps = match g.chance.below(50) {
        0..=2 => 0,
        3..=7 => 1,
        8..=25 => 2 + g.chance.below(8),
        26..=45 => 10 + g.chance.below(90),
        46..=47 => 100 + g.chance.below(900),
        48 => 1_000 + g.chance.below(MOST_STEPS - 1_000),
        _ => MOST_STEPS,
    };
    Draft::sound(&mut g.chance, steps).bytes()
}

fn few_steps(chance: &mut Chance) -> Draft {
    let steps = 1 + chance.below(4);
    Draft::sound(chance, steps)
}

/// As long as a file can be, and now and then longer.
fn longest(g: &mut Generator) -> Vec<u8> {
    let mut draft = Draft::with_most_types(&mut g.chance, MOST_STEPS);
    draft.surplus = match g.chance.below(4) {
        0 => vec![0],
        1 => vec![0; 2 + g.chance.below(5_000)],
        _ => Vec::new(),
    };
    draft.bytes()
}

/// A short file, and how much of it comes next.
pub struct Cutting {
    file: Vec<u8>,
    length: usize,
}

impl Cutting {
    pub fn new() -> Self {
        Cutting { file: Vec::new(), length: 0 }
    }
}

/// Each beginning of a short file, from the empty one on, and then of another.
fn cut_in_turn(g: &mut Generator) -> Vec<u8> {
    if g.cutting.length == g.cutting.file.len() {
        let steps = g.chance.below(4);
        g.cutting = Cutting { file: Draft::sound(&mut g.chance, steps).bytes(), length: 0 };
    }
    g.cutting.length += 1;
    g.cutting.file[..g.cutting.length - 1].to_vec()
}

fn cut_anywhere(g: &mut Generator) -> Vec<u8> {
    let mut bytes = sound(g);
    bytes.truncate(g.chance.below(bytes.len()));
    bytes
}

fn cut_inside_bad_field(g: &mut Generator) -> Vec<u8> {
    let mut draft = few_steps(&mut g.chance);
    cut_bad_field(&mut draft, &mut g.chance)
}

fn one_field_spoilt(g: &mut Generator) -> Vec<u8> {
    let mut draft = few_steps(&mut g.chance);
    let (_, spoil) = g.chance.pick(&SPOILS);
    spoil(&mut draft, &mut g.chance);
    draft.bytes()
}

#[derive(Clone, Copy)]
enum Second {
    Spoilt(Spoil),
    CutWithin(Field),
    Surplus,
}

/// Every field out of range with every fault behind it, and which of the pairs comes next.
pub struct Pairs {
    all: Vec<(Spoil, Second)>,
    next: usize,
}

impl Pairs {
    pub fn new() -> Self {
        let mut all = Vec::new();
        for (at, (field, spoil)) in SPOILS.into_iter().enumerate() {
            all.extend(SPOILS[at + 1..].iter().map(|(_, later)| (spoil, Second::Spoilt(*later))));
            all.extend(behind(field).map(|later| (spoil, Second::CutWithin(later))));
            all.push((spoil, Second::Surplus));
        }
        Pairs { all, next: 0 }
    }

    fn take(&mut self) -> (Spoil, Second) {
        let pair = self.all[self.next];
        self.next = (self.next + 1) % self.all.len();
        pair
    }
}

fn two_faults(g: &mut Generator) -> Vec<u8> {
    let mut draft = few_steps(&mut g.chance);
    let (first, second) = g.pairs.take();
    first(&mut draft, &mut g.chance);
    match second {
        Second::Spoilt(later) => later(&mut draft, &mut g.chance),
        Second::CutWithin(field) => return cut_within(&draft, field, &mut g.chance),
        Second::Surplus => draft.surplus = some_surplus(&draft, &mut g.chance),
    }
    draft.bytes()
}

fn many_faults(g: &mut Generator) -> Vec<u8> {
    let mut draft = few_steps(&mut g.chance);
    for (_, spoil) in &SPOILS[2..] {
        if g.chance.coin() {
            spoil(&mut draft, &mut g.chance);
        }
    }
    draft.surplus = some_surplus(&draft, &mut g.chance);
    draft.bytes()
}

/// From one byte to more than the program's buffer has room for; of zeros, any bytes, or the file once more.
fn some_surplus(draft: &Draft, chance: &mut Chance) -> Vec<u8> {
    let file = draft.bytes();
    let room = BUFFER_LEN.saturating_sub(file.len());
    let length = match chance.below(12) {
        0..=3 => 1,
        4 => 2 + chance.below(2),
        5..=8 => 4 + chance.below(100),
        9 => room.saturating_sub(chance.below(2)).max(1),
        10 => room + 1,
        _ => room + 2 + chance.below(5_000),
    };
    match chance.below(3) {
        0 => vec![0; length],
        1 => (0..length).map(|_| chance.byte()).collect(),
        _ => file.into_iter().cycle().take(length).collect(),
    }
}

fn surplus(g: &mut Generator) -> Vec<u8> {
    let steps = g.chance.below(20);
    let mut draft = Draft::sound(&mut g.chance, steps);
    draft.surplus = some_surplus(&draft, &mut g.chance);
    draft.bytes()
}

/// One step more than there may be, and it is there; the count says so, or leaves it out.
fn too_many_steps(g: &mut Generator) -> Vec<u8> {
    let mut draft = Draft::sound(&mut g.chance, MOST_STEPS + 1);
    if g.chance.coin() {
        draft.step_count = MOST_STEPS as u16;
    }
    draft.bytes()
}

/// May leave the file well formed.
fn few_bytes_changed(g: &mut Generator) -> Vec<u8> {
    let mut bytes = few_steps(&mut g.chance).bytes();
    for _ in 0..1 + g.chance.below(3) {
        let at = g.chance.below(bytes.len());
        bytes[at] = g.chance.byte();
    }
    bytes
}

fn any_bytes(g: &mut Generator) -> Vec<u8> {
    let most = g.chance.pick(&[40, 40, 40, 1_000, 20_000]);
    (0..g.chance.below(most)).map(|_| g.chance.byte()).collect()
}
