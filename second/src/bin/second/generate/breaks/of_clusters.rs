//! Refusal 5: bit 30, too many clusters, control and copy where they may not be.

use super::{any_part, Break, Case};
use crate::generate::draft::{clusters, Part, CALL, NOP, RETURN, STOP};
use crate::generate::random::Random;

pub const BREAKS: [Break; 11] = [
    |random, case| {
        // Bit 30 missing at an instruction's first syllable.
        let (instruction, _) = any_part(random, &case.draft);
        case.draft.instructions[instruction][0].opens = false;
    },
    |random, case| {
        // One cluster more than C: by new nops, or by bit 30 on syllables there are.
        let c = case.c();
        let (instruction, _) = any_part(random, &case.draft);
        let parts = &mut case.draft.instructions[instruction];
        let mut opened = parts.iter().filter(|part| part.opens).count();
        if random.percent(40) {
            for part in parts.iter_mut().rev() {
                if !part.opens && opened <= c {
                    part.opens = true;
                    opened += 1;
                }
            }
        }
        while opened <= c {
            parts.push(Part::new(true, NOP));
            opened += 1;
        }
    },
    |random, case| control_outside(random, case, STOP),
    |random, case| control_outside(random, case, CALL),
    |random, case| control_outside(random, case, RETURN),
    |random, case| control_outside(random, case, 61 << 24),
    |random, case| control_outside(random, case, 62 << 24),
    |random, case| control_outside(random, case, 63 << 24),
    |random, case| {
        // Half the time in an instruction that opens any of the clusters.
        if random.percent(50) {
            let opened = random.between(1, case.c() as u32);
            let at = random.index(case.draft.instructions.len());
            case.draft.insert(at, (0..opened).map(|_| Part::new(true, NOP)).collect());
            put_copy(random, case, at, opened as usize - 1, opened - 1);
            return;
        }
        let (instruction, part) = any_part(random, &case.draft);
        let own = clusters(&case.draft.instructions[instruction])[part];
        put_copy(random, case, instruction, part, own as u32);
    },
    |random, case| {
        // Needs a cluster number that is not below C.
        if case.c() < 4 {
            let (instruction, part) = any_part(random, &case.draft);
            let from = random.between(case.c() as u32, 3);
            put_copy(random, case, instruction, part, from);
        }
    },
    |random, case| {
        // With C = 1 every copy is refused.
        let (instruction, part) = any_part(random, &case.draft);
        let from = random.below(4);
        put_copy(random, case, instruction, part, from);
    },
];

fn put_copy(random: &mut Random, case: &mut Case, instruction: usize, part: usize, from: u32) {
    let word = 60 << 24 | random.below(64) << 18 | random.below(64) << 12 | from;
    let old = case.draft.instructions[instruction][part];
    case.draft.instructions[instruction][part] = Part { opens: old.opens, word, aim: None };
}

fn control_outside(random: &mut Random, case: &mut Case, word: u32) {
    let aim = random.index(case.draft.instructions.len());
    let (instruction, _) = any_part(random, &case.draft);
    let parts = &mut case.draft.instructions[instruction];
    let part = Part::new(false, word);
    let part = Part { aim: part.has_target().then_some(aim), ..part };
    match clusters(parts).iter().position(|&cluster| cluster > 0) {
        Some(at) if random.percent(50) => parts.insert(at + 1, part),
        _ => parts.push(Part { opens: true, ..part }),
    }
}
