//! Refusal 7: one register twice as destination.

use super::{Break, Case};
use crate::generate::draft::{clusters, Part, NOP};
use crate::generate::random::Random;
use second::syllable::{Class, Syllable};

pub const BREAKS: [Break; 6] = [
    |random, case| double(random, case, &[general(1), general(1)], false),
    |random, case| double(random, case, &[branch(40), branch(40)], false),
    |random, case| double(random, case, &[branch(40), branch(40)], true),
    |random, case| double(random, case, &[general(23), general(1)], false),
    |random, case| double(random, case, &[branch(23), branch(40)], false),
    |random, case| double(random, case, &[branch(23), branch(23)], true),
];

/// An opcode and where it names the doubled register.
#[derive(Clone, Copy)]
struct Named {
    opcode: u32,
    shift: u32,
}

fn general(opcode: u32) -> Named {
    Named { opcode, shift: 18 }
}

fn branch(opcode: u32) -> Named {
    Named { opcode, shift: if opcode == 23 { 6 } else { 18 } }
}

/// Puts two syllables naming one register into some cluster of an instruction, with room for them.
fn double(random: &mut Random, case: &mut Case, named: &[Named; 2], register_0: bool) {
    let c = case.c();
    let instruction = random.index(case.draft.instructions.len());
    let is_branch = named[1].opcode == 40 || named[1].shift == 6;
    let register = match (register_0, is_branch) {
        (true, _) => 0,
        (false, true) => random.below(8),
        (false, false) => random.between(1, 63),
    };
    let parts = &mut case.draft.instructions[instruction];
    let first = random.index(parts.len());
    let cluster = clusters(parts)[first];
    // The rest of the cluster goes, so that counts are seldom a second cause.
    while parts.len() > first + 1 && !parts[first + 1].opens && parts[first + 1].opcode() < 61 {
        parts.remove(first + 1);
    }
    let mut words = Vec::new();
    for (index, part) in named.iter().enumerate() {
        let opcode = match part.opcode {
            1 => match random.between(1, 46) {
                index @ 1..=22 => index,
                index @ 23..=38 => index + 1,
                index @ 39..=45 => index + 11,
                _ => 60,
            },
            40 => random.between(40, 49),
            opcode => opcode,
        };
        let others = match opcode {
            // addcg's other destination stays apart.
            23 if is_branch => (1 + index as u32) << 18,
            23 => random.below(8) << 6,
            60 => ((cluster + 1) % c) as u32,
            _ => 0,
        };
        words.push(opcode << 24 | register << part.shift | others);
    }
    if random.percent(50) {
        words.reverse();
    }
    for word in words {
        parts.insert(first + 1, Part::new(false, word));
    }
    let old = parts[first];
    if old.opcode() < 61 && Syllable(old.word).class() != Class::Control {
        parts[first] = Part { opens: old.opens, word: NOP, aim: None };
    }
    // Copies need room in the next cluster too.
    for cluster in [cluster, (cluster + 1) % c] {
        if cluster < c {
            case.table[1 + 5 * cluster..6 + 5 * cluster].copy_from_slice(&[8, 8, 4, 4, 4]);
        }
    }
}
