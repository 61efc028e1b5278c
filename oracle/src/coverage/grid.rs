//! A table of counts over one axis or more, which knows which of its points nothing has reached.

use std::fmt::Write as _;
use std::io::{self, Write};

pub type Axis = Vec<String>;

pub struct Grid {
    title: &'static str,
    axes: Vec<Axis>,
    counts: Vec<u64>,
    /// Points that need not be reached, because no list can or none has to.
    excused: Vec<bool>,
}

/// The axis of all bytes.
pub fn bytes() -> Axis {
    (0..=255).map(|byte: u8| byte.to_string()).collect()
}

pub fn names<T: ToString>(names: &[T]) -> Axis {
    names.iter().map(T::to_string).collect()
}

pub fn no_yes() -> Axis {
    names(&["no", "yes"])
}

/// Writes the tables and what nothing has reached. False where there is such a point.
pub fn report(grids: &[&Grid], out: &mut impl Write, summary: bool) -> io::Result<bool> {
    for grid in grids {
        let text = if summary { grid.summary() } else { grid.table() };
        out.write_all(text.as_bytes())?;
    }
    let complaints: Vec<String> = grids.iter().filter_map(|grid| grid.complaint()).collect();
    for complaint in &complaints {
        writeln!(out, "{complaint}")?;
    }
    if complaints.is_empty() {
        writeln!(out, "everything is reached")?;
    }
    Ok(complaints.is_empty())
}

impl Grid {
    pub fn new<const N: usize>(title: &'static str, axes: [Axis; N]) -> Self {
        let points = axes.iter().map(Vec::len).product();
        Grid { title, axes: axes.to_vec(), counts: vec![0; points], excused: vec![false; points] }
    }

    fn index(&self, place: &[usize]) -> usize {
        assert_eq!(place.len(), self.axes.len());
        self.axes.iter().zip(place).fold(0, |index, (axis, at)| {
            assert!(*at < axis.len());
            index * axis.len() + at
        })
    }

    pub fn hit(&mut self, place: &[usize]) {
        let index = self.index(place);
        self.counts[index] += 1;
    }

    pub fn excuse(&mut self, place: &[usize]) {
        let index = self.index(place);
        self.excused[index] = true;
    }

    fn label(&self, mut index: usize) -> String {
        let mut labels = Vec::new();
        for axis in self.axes.iter().rev() {
            labels.push(axis[index % axis.len()].as_str());
            index /= axis.len();
        }
        labels.reverse();
        labels.join(", ")
    }

    fn demanded(&self) -> impl Iterator<Item = usize> + '_ {
        (0..self.counts.len()).filter(|index| !self.excused[*index])
    }

    fn missed(&self) -> Vec<usize> {
        self.demanded().filter(|index| self.counts[*index] == 0).collect()
    }

    /// One line that names some of the points missed, if there are any.
    pub fn complaint(&self) -> Option<String> {
        let missed = self.missed();
        let first: Vec<String> = missed.iter().take(5).map(|index| self.label(*index)).collect();
        let more = missed.len().saturating_sub(first.len());
        let tail = if more > 0 { format!(" | and {more} more") } else { String::new() };
        (!missed.is_empty()).then(|| format!("NOT REACHED: {}: {}{tail}", self.title, first.join(" | ")))
    }

    /// The title with how many points are reached, and the fewest hits among them.
    pub fn summary(&self) -> String {
        let (all, missed) = (self.demanded().count(), self.missed().len());
        let total: u64 = self.counts.iter().sum();
        format!("{}: {} of {all} reached, {total} in all\n", self.title, all - missed)
    }

    /// The summary and, where the table is not too large, the counts.
    pub fn table(&self) -> String {
        let last = self.axes.last().map_or(0, Vec::len);
        let mut text = self.summary();
        match (self.counts.len(), last) {
            (0..=100, _) => self.write_lines(&mut text),
            (_, 256) if self.counts.len() <= 4096 => self.write_rows(&mut text),
            _ => {}
        }
        text
    }

    fn write_lines(&self, text: &mut String) {
        for index in 0..self.counts.len() {
            let _ = writeln!(text, "  {:>8}  {}", self.counts[index], self.label(index));
        }
    }

    /// The last axis has 256 places: sixteen in a row.
    fn write_rows(&self, text: &mut String) {
        for start in (0..self.counts.len()).step_by(16) {
            let row: Vec<String> = self.counts[start..start + 16].iter().map(|count| format!("{count:>5}")).collect();
            let _ = writeln!(text, "  {:>24}.. {}", self.label(start), row.join(" "));
        }
    }
}
