//! Breaks: ways to make a program that loads into one that is refused, for each number and cause.

pub mod of_clusters;
pub mod of_control;
pub mod of_counts;
pub mod of_destinations;
pub mod of_table;
pub mod stray_bits;

use super::draft::Draft;
use super::random::Random;

/// A table and a draft that goes with it.
pub struct Case {
    pub table: Vec<u8>,
    pub draft: Draft,
}

impl Case {
    pub fn c(&self) -> usize {
        usize::from(self.table[0])
    }

    fn width(&self, cluster: usize) -> usize {
        usize::from(self.table[1 + 5 * cluster])
    }
}

/// A break may find nothing to break; then the case stays as it was.
pub type Break = fn(&mut Random, &mut Case);

/// Some instruction and one of its parts; early ones are not favoured.
pub fn any_part(random: &mut Random, draft: &Draft) -> (usize, usize) {
    let instruction = random.index(draft.instructions.len());
    (instruction, random.index(draft.instructions[instruction].len()))
}
