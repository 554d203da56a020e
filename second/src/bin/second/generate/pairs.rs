//! Operands for the operations' values: all pairs of edge words, then random ones.

use super::random::Random;
use crate::requests::Request;

#[rustfmt::skip]
pub const EDGES: [u32; 32] = [
    0, 1, 2, 3, 4, 0x1F, 0x20, 0x21, 0x7F, 0x80, 0xFF, 0x100, 0x7FFF, 0x8000, 0x8001, 0xFFFF, 0x1_0000, 0x1_0001,
    0x0FFF_FFFF, 0x1000_0000, 0x7FFF_0000, 0x7FFF_FFFF, 0x8000_0000, 0x8000_0001, 0xFFFF_0000, 0xFFFF_7FFF,
    0xFFFF_8000, 0xFFFF_FF7F, 0xFFFF_FF80, 0xFFFF_FFE0, 0xFFFF_FFFE, 0xFFFF_FFFF,
];

/// Bits 11..0 of a syllable: edges of the immediate in its low 11, of the offset in all 12.
pub const EDGE_FIELDS: [u32; 16] =
    [0, 1, 2, 4, 0x3FE, 0x3FF, 0x400, 0x401, 0x7FE, 0x7FF, 0x800, 0x801, 0xBFF, 0xC00, 0xFFE, 0xFFF];

pub const EDGE_PAIRS: u64 = (EDGES.len() * EDGES.len() * 2) as u64;

/// All pairs of edge words with both b.
pub fn edge_pair(random: &mut Random, index: u64) -> Request {
    let (pair, b) = (index as usize / 2, index as u32 % 2);
    let (first, second) = (pair / EDGES.len(), pair % EDGES.len());
    // Every first operand meets every edge field under each b.
    let field = EDGE_FIELDS[second % EDGE_FIELDS.len()];
    let syllable = random.word() & !0xFFF | field;
    Request::Values { s1: EDGES[first], s2: EDGES[second], b, syllable }
}

pub fn pair(random: &mut Random) -> Request {
    let (s1, s2) = (word(random), word(random));
    let s2 = if random.percent(5) { s1 } else { s2 };
    let field = if random.percent(30) { random.pick(&EDGE_FIELDS) } else { random.below(0x1000) };
    let syllable = random.word() & !0xFFF | field;
    Request::Values { s1, s2, b: random.below(2), syllable }
}

/// An operand: anything, an edge, near an edge, or of few bits.
pub fn word(random: &mut Random) -> u32 {
    match random.below(8) {
        0..=3 => random.word(),
        4 => random.pick(&EDGES),
        5 => random.pick(&EDGES).wrapping_add(random.below(9)).wrapping_sub(4),
        6 => random.word() >> random.below(32),
        _ => (random.word() >> random.below(32)) << random.below(32),
    }
}
