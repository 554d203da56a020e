//! Refusal 8: bad targets, a stop or a return with company, a bad last instruction.

use super::{Break, Case};
use crate::generate::draft::{Part, CALL, NOP, RETURN, STOP};
use crate::generate::random::Random;

pub const BREAKS: [Break; 18] = [
    |random, case| target(random, case, Where::Inside),
    |random, case| target(random, case, Where::Inside),
    |random, case| target(random, case, Where::Inside),
    |random, case| target(random, case, Where::End),
    |random, case| target(random, case, Where::End),
    |random, case| target(random, case, Where::End),
    |random, case| target(random, case, Where::Beyond),
    |random, case| target(random, case, Where::Beyond),
    |random, case| target(random, case, Where::Beyond),
    |random, case| company(random, case, STOP),
    |random, case| company(random, case, STOP),
    |random, case| company(random, case, RETURN),
    |random, case| company(random, case, RETURN),
    |random, case| company(random, case, RETURN),
    |random, case| {
        // The last instruction a branch or a call.
        let aim = random.index(case.draft.instructions.len());
        let word = branch_or_call(random);
        let mut last = vec![Part { opens: true, word, aim: Some(aim) }];
        if random.percent(40) && case.width(0) > 1 {
            last.insert(0, Part::new(true, NOP));
            last[1].opens = false;
        }
        case.draft.instructions.push(last);
    },
    last_with_bad_target,
    last_with_bad_target,
    |random, case| {
        // The last instruction plain.
        let mut last = vec![Part::new(true, NOP)];
        if random.percent(40) && case.width(0) > 1 {
            last.push(Part::new(false, NOP));
        }
        if random.percent(50) && case.c() > 1 {
            last.push(Part::new(true, NOP));
        }
        case.draft.instructions.push(last);
    },
];

fn branch_or_call(random: &mut Random) -> u32 {
    if random.percent(40) {
        CALL
    } else {
        random.pick(&[62, 63]) << 24 | random.below(8) << 21
    }
}

/// The last instruction a branch or a call with a bad target, at its first syllable or behind it.
fn last_with_bad_target(random: &mut Random, case: &mut Case) {
    let many = case.draft.syllables() as u32;
    let word = branch_or_call(random) | (many + random.between(1, 9));
    let mut last = vec![Part::new(true, word)];
    if random.percent(70) {
        last = vec![Part::new(true, NOP), Part::new(false, word)];
        case.table[1] = case.table[1].max(2);
    }
    case.draft.instructions.push(last);
}

enum Where {
    Inside,
    End,
    Beyond,
}

/// Adds an instruction whose target is no instruction's first syllable.
fn target(random: &mut Random, case: &mut Case, place: Where) {
    // The word and the bits that its target has.
    let (word, bits) = random.pick(&[(CALL, 18), (61 << 24, 24), (62 << 24, 21), (63 << 24, 21)]);
    let at = random.index(case.draft.instructions.len());
    if matches!(place, Where::Inside) && case.draft.instructions.iter().all(|parts| parts.len() == 1) {
        let opens = case.c() > 1;
        case.draft.instructions[at].push(Part::new(opens, NOP));
    }
    case.draft.insert(at, vec![Part::new(true, word)]);
    if random.percent(30) && case.width(0) > 1 {
        case.draft.instructions[at].insert(0, Part::new(true, NOP));
        case.draft.instructions[at][1].opens = false;
    }
    let many = case.draft.syllables() as u32;
    let most = (1 << bits) - 1;
    let index = match place {
        Where::Inside => {
            let places = case.draft.places();
            let inside: Vec<u32> = (0..many).filter(|place| !places.contains(place)).collect();
            if inside.is_empty() {
                many
            } else {
                random.pick(&inside)
            }
        }
        Where::End => many,
        // A far target may look like a good one in its low bits.
        Where::Beyond => match random.below(4) {
            0 => many + 1,
            1 => random.between(many, most),
            2 => 1 << random.between(13, bits - 1),
            _ => most,
        },
    };
    let control = case.draft.instructions[at].len() - 1;
    let register = if bits == 21 { random.below(8) << 21 } else { 0 };
    case.draft.instructions[at][control].word |= register | index;
}

/// A stop or a return with company: a nop or another syllable, before or after it, in its cluster or the next.
fn company(random: &mut Random, case: &mut Case, word: u32) {
    let other = if random.percent(50) { NOP } else { 1 << 24 | random.below(64) << 18 };
    let mut parts = vec![Part::new(false, word)];
    match random.below(4) {
        0 | 1 => parts.insert(0, Part::new(false, other)),
        2 if case.c() > 1 => parts.push(Part::new(true, other)),
        _ => parts.push(Part::new(false, other)),
    }
    parts[0].opens = true;
    // Mostly there is room for it, so that it is the only cause.
    if random.percent(80) {
        case.table[1] = case.table[1].max(2);
        case.table[2] = case.table[2].max(1);
        if case.c() > 1 {
            case.table[7] = case.table[7].max(1);
        }
    }
    let at = random.index(case.draft.instructions.len());
    case.draft.insert(at, parts);
}
