//! Refusal 4: every group of bits that should be zero.

use super::{any_part, Case};
use crate::generate::build::{self, Style};
use crate::generate::draft::{Part, CALL, RETURN, STOP};
use crate::generate::random::Random;

/// Sets some of the bits that should be zero, in some opcode's syllable.
pub fn stray_bits(random: &mut Random, case: &mut Case) {
    // Opcode, the bits that should be zero, and bits that must be set with them.
    let groups: Vec<(u32, u32, u32)> = (0..64u32)
        .flat_map(|opcode| match opcode {
            // Above 3, also where the low bits look like a call; and beside nop, stop and return.
            0 => vec![
                (0, 0xF0_0000, 0),
                (0, 0xF0_0000, CALL),
                (0, 0x3_FFFF, 0),
                (0, 0x3_FFFF, STOP),
                (0, 0x3_FFFF, RETURN),
            ],
            1..=18 | 24..=39 => vec![(opcode, 0x7C0, 0)],
            19..=22 => vec![(opcode, 0xFFF, 0)],
            40..=49 => vec![(opcode, 0x7C0, 0), (opcode, 0xE0_0000, 0), (opcode, 0xE0_0000, 0x800)],
            50 | 51 => vec![(opcode, 0x1C0, 0)],
            60 => vec![(60, 0xFFC, 0)],
            _ => vec![],
        })
        .collect();
    let (opcode, mask, with) = random.pick(&groups);
    let style = Style::any(random);
    let mut word = build::word(random, &style, opcode, 0, 4) | with;
    if mask == 0x7C0 {
        // The group counts only if bit 11 is clear.
        word &= !0xFFF;
    }
    let bits: Vec<u32> = (0..24).filter(|bit| mask >> bit & 1 == 1).collect();
    word |= 1 << random.pick(&bits);
    if random.percent(30) {
        word |= random.word() & mask;
    }
    let (instruction, part) = any_part(random, &case.draft);
    let old = case.draft.instructions[instruction][part];
    case.draft.instructions[instruction][part] = Part { opens: old.opens, word, aim: None };
}
