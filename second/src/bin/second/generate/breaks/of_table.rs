//! Refusal 1: every limit of the table.

use super::{Break, Case};
use crate::generate::random::Random;

pub const BREAKS: [Break; 15] = [
    |random, case| case.table.truncate(random.pick(&[0, 0, 0, 1])),
    |_, case| {
        case.table.pop();
    },
    |random, case| case.table.truncate(random.index(case.table.len())),
    |random, case| case.table.extend(vec![1; random.pick(&[1, 1, 5, 20])]),
    |_, case| {
        // C = 0 with the length that would go with it.
        case.table = vec![0, 1, 1, 1, 1, 1];
    },
    |random, case| {
        // C above 4, half the time with the length that would go with it.
        let c = random.pick(&[5, 5, 6, 8, 255]);
        case.table[0] = c;
        if random.percent(50) && c < 8 {
            case.table = [vec![c], vec![1; 5 * usize::from(c) + 5]].concat();
        }
    },
    |random, case| {
        // C within its limits but not the one the length goes with.
        let c = case.table[0];
        case.table[0] = (c + random.pick(&[0, 1, 2])) % 4 + 1;
        if case.table[0] == c {
            case.table[0] = c % 4 + 1;
        }
    },
    |random, case| set_count(random, case, 0, 0),
    |random, case| {
        let bad = random.pick(&[9, 9, 16, 255]);
        set_count(random, case, 0, bad);
    },
    |random, case| {
        let bad = random.pick(&[9, 9, 128]);
        set_count(random, case, 1, bad);
    },
    |random, case| too_many(random, case, 2),
    |random, case| too_many(random, case, 3),
    |random, case| too_many(random, case, 4),
    |random, case| set_delay(random, case, 0),
    |random, case| {
        let bad = random.pick(&[9, 9, 255]);
        set_delay(random, case, bad);
    },
];

/// MUL, MEM or COPY above 4.
fn too_many(random: &mut Random, case: &mut Case, which: usize) {
    let bad = random.pick(&[5, 5, 8, 255]);
    set_count(random, case, which, bad);
}

fn set_count(random: &mut Random, case: &mut Case, which: usize, byte: u8) {
    let cluster = random.index(case.c());
    case.table[1 + 5 * cluster + which] = byte;
}

fn set_delay(random: &mut Random, case: &mut Case, byte: u8) {
    let at = case.table.len() - 1 - random.index(5);
    case.table[at] = byte;
}
