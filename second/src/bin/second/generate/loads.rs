//! Calls of load: programs that load, and breaks of every number by every cause.

use super::breaks::{of_clusters, of_control, of_counts, of_destinations, of_table, stray_bits};
use super::breaks::{Break, Case};
use super::build::{self, Style};
use super::draft::{Draft, Part, NOP, STOP};
use super::random::Random;
use super::tables;
use crate::requests::Program;

const FULL: usize = 4096;

#[derive(Clone, Copy)]
enum Aim {
    Good,
    Table,
    Draft(&'static [Break]),
    StrayBits,
    Bytes(fn(&mut Random, &mut Program)),
    RandomBytes,
}

const AIMS: [(u32, Aim); 11] = [
    (22, Aim::Good),
    (10, Aim::Table),
    (6, Aim::Bytes(sizes)),
    (2, Aim::Bytes(last_bit_31)),
    (38, Aim::StrayBits),
    (13, Aim::Draft(&of_clusters::BREAKS)),
    (14, Aim::Draft(&of_counts::BREAKS)),
    (8, Aim::Draft(&of_destinations::BREAKS)),
    (13, Aim::Draft(&of_control::BREAKS)),
    (6, Aim::Bytes(flip_bits)),
    (2, Aim::RandomBytes),
];

pub fn call(random: &mut Random) -> Program {
    let mut case = good_case(random);
    let mut aims = vec![random.weighted(&AIMS)];
    // Several breaks at once, so that the order and the lowest place matter.
    if !matches!(aims[0], Aim::Good) && random.percent(22) {
        aims.extend((0..random.between(1, 2)).map(|_| random.weighted(&AIMS)));
    }
    if matches!(aims[0], Aim::Good) && random.percent(5) {
        of_counts::fill(random, &mut case);
    }
    if matches!(aims[0], Aim::Good) && random.percent(40) {
        of_counts::fit_exactly(&mut case);
    }
    for aim in &aims {
        match aim {
            Aim::Draft(family) => random.pick(family)(random, &mut case),
            Aim::StrayBits => stray_bits::stray_bits(random, &mut case),
            _ => {}
        }
    }
    // The table is broken once and last: the others need a good one.
    if aims.iter().any(|aim| matches!(aim, Aim::Table)) {
        random.pick(&of_table::BREAKS)(random, &mut case);
    }
    let mut call = Program { table: case.table, program: case.draft.bytes(), room: random.bytes(12) };
    for aim in aims {
        match aim {
            Aim::Bytes(bytes_break) => bytes_break(random, &mut call),
            Aim::RandomBytes => call.program = random_words(random),
            _ => {}
        }
    }
    // No request may hold a longer program.
    call.program.truncate(4 * FULL + 16);
    call
}

/// A table and a program that loads under it.
pub fn good_case(random: &mut Random) -> Case {
    let table = if random.percent(50) { tables::any(random) } else { tables::roomy(random) };
    let parsed = second::table::read(&table).expect("a good table");
    let style = Style::any(random);
    let most = random.weighted(&[(1, 1), (6, 6), (6, 12), (1, 40)]);
    let count = random.between(1, most) as usize;
    let mut draft = build::program(random, &parsed, &style, count);
    // Places above 255, and now and then as many as there may be.
    match random.below(250) {
        0 => lengthen(&mut draft, FULL),
        1..=6 => lengthen(&mut draft, random.between(257, 600) as usize),
        _ => {}
    }
    Case { table, draft }
}

/// Puts nops before the last instruction until there are so many syllables.
fn lengthen(draft: &mut Draft, syllables: usize) {
    while draft.syllables() < syllables {
        let last = draft.instructions.len() - 1;
        draft.insert(last, vec![Part::new(true, NOP)]);
    }
}

/// Program sizes and rooms, good and bad ones.
fn sizes(random: &mut Random, call: &mut Program) {
    let stop = (3 << 30 | STOP).to_be_bytes();
    if random.percent(45) {
        let size = random.pick(&[0, 11, 13, 24]);
        call.room = random.bytes(size);
        // 2 comes before 3.
        if random.percent(10) {
            last_bit_31(random, call);
        }
    }
    if random.percent(65) {
        match random.below(12) {
            0 | 1 => call.program.clear(),
            2 | 3 => call.program.truncate(random.between(1, 3) as usize),
            4 => {
                call.program.pop();
            }
            5 => call.program.push(0),
            6 => call.program.extend([0xC0, 4]),
            7 => call.program = stop.repeat(FULL),
            8 => call.program = [stop.repeat(FULL), stop[..random.between(1, 3) as usize].to_vec()].concat(),
            9 => call.program = stop.repeat(FULL + 1),
            10 => call.program = stop.repeat(FULL + 4),
            _ => call.program = stop.to_vec(),
        }
    }
}

fn last_bit_31(_: &mut Random, call: &mut Program) {
    let length = call.program.len();
    if length >= 4 && length % 4 == 0 {
        call.program[length - 4] &= 0x7F;
    }
}

fn flip_bits(random: &mut Random, call: &mut Program) {
    for _ in 0..random.between(1, 3) {
        let into = if random.percent(10) { &mut call.table } else { &mut call.program };
        if !into.is_empty() {
            let at = random.index(into.len());
            into[at] ^= 1 << random.below(8);
        }
    }
}

/// Words of no plan; half of them at least end their instructions and open their cluster.
fn random_words(random: &mut Random) -> Vec<u8> {
    let with = random.pick(&[0, 3 << 30, 1 << 30]);
    let count = random.between(1, 6);
    (0..count).flat_map(|_| (random.word() | with).to_be_bytes()).collect()
}

#[cfg(test)]
mod tests {
    use super::*;
    use second::load::{load, Lengths};

    fn loads(case: &Case) -> bool {
        load(&case.table, &case.draft.bytes(), Lengths::of_load(12)).is_ok()
    }

    #[test]
    fn good_cases_load_and_fit_exactly() {
        for index in 0..400 {
            let mut case = good_case(&mut Random::new(7, index));
            assert!(loads(&case), "case {index}");
            of_counts::fit_exactly(&mut case);
            assert!(loads(&case), "case {index} fitted");
        }
    }
}
