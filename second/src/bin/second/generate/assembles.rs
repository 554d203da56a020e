//! Calls of assemble: a text, a program of about its size, a room.

use super::notation::{edits, text};
use super::random::Random;
use crate::requests::Assemble;
use second::assemble::refusals;

/// So many calls come first, the same for every seed.
pub fn fixed() -> u64 {
    edits::texts().len() as u64
}

pub fn fixed_call(index: u64) -> Assemble {
    Assemble { text: edits::texts()[index as usize].clone(), program: vec![0xEE; 19], room: vec![0xEE; 12] }
}

pub fn call(random: &mut Random) -> Assemble {
    let text = text(random);
    let syllables = refusals::read(&text).map_or(4, |instructions| instructions.iter().map(Vec::len).sum());
    let length = program_length(random, 4 * syllables);
    let program = if random.percent(50) { vec![0xEE; length] } else { random.bytes(length) };
    let room = if random.percent(92) { 12 } else { random.pick(&[0, 11, 13, 24]) };
    Assemble { text, program, room: random.bytes(room) }
}

/// Just enough, a byte or a syllable too few, or more than enough.
fn program_length(random: &mut Random, enough: usize) -> usize {
    match random.below(100) {
        0..=29 => enough,
        30..=34 => enough.saturating_sub(random.pick(&[1, 1, 2, 3])),
        35..=37 => enough.saturating_sub(4),
        38 => enough.saturating_sub(5),
        39 => 0,
        40..=59 => enough + random.between(1, 3) as usize,
        _ => enough + random.between(4, 60) as usize,
    }
}
