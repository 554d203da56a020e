//! Refusal 6: widths, counts and a second control syllable.

use super::{any_part, Break, Case};
use crate::generate::draft::{clusters, Part, CALL, NOP, RETURN, STOP};
use crate::generate::random::Random;
use second::syllable::{Class, Syllable};

pub const BREAKS: [Break; 15] = [
    |random, case| {
        // Too many syllables by nops alone.
        let (instruction, part) = any_part(random, &case.draft);
        let cluster = clusters(&case.draft.instructions[instruction])[part];
        let limit = case.width(cluster);
        let parts = &mut case.draft.instructions[instruction];
        let mut count = clusters(parts).iter().filter(|&&other| other == cluster).count();
        while count <= limit {
            parts.insert(part + 1, Part::new(false, NOP));
            count += 1;
        }
    },
    |random, case| tighten(random, case, 0),
    |random, case| tighten(random, case, 1),
    |random, case| tighten(random, case, 2),
    |random, case| tighten(random, case, 3),
    |random, case| tighten(random, case, 4),
    crowd,
    crowd,
    copies,
    copies,
    copies,
    two_controls,
    two_controls,
    two_controls,
    two_controls,
];

/// How many of an instruction's syllables a cluster needs, in all and by class; a copy counts in both clusters.
fn usage(parts: &[Part], c: usize) -> Vec<[u8; 5]> {
    let mut usage = vec![[0; 5]; c];
    for (part, cluster) in parts.iter().zip(clusters(parts)) {
        if cluster >= c {
            continue;
        }
        usage[cluster][0] += 1;
        let syllable = Syllable(part.word);
        match syllable.class() {
            Class::Alu => usage[cluster][1] += 1,
            Class::Mul => usage[cluster][2] += 1,
            Class::Mem => usage[cluster][3] += 1,
            Class::Copy => {
                usage[cluster][4] += 1;
                let source = syllable.copy_source() as usize;
                if source < c {
                    usage[source][4] += 1;
                }
            }
            _ => {}
        }
    }
    usage
}

/// Sets a count one below what some instruction needs.
fn tighten(random: &mut Random, case: &mut Case, which: usize) {
    let least = if which == 0 { 1 } else { 0 };
    let mut needs = Vec::new();
    for instruction in &case.draft.instructions {
        for (cluster, used) in usage(instruction, case.c()).iter().enumerate() {
            if used[which] > least {
                needs.push((cluster, used[which] - 1));
            }
        }
    }
    if !needs.is_empty() {
        let (cluster, count) = random.pick(&needs);
        case.table[1 + 5 * cluster + which] = count;
    }
}

/// Sets every width and count to exactly what the program needs; it still loads.
pub fn fit_exactly(case: &mut Case) {
    let mut most = vec![[1, 0, 0, 0, 0]; case.c()];
    for instruction in &case.draft.instructions {
        for (cluster, used) in usage(instruction, case.c()).iter().enumerate() {
            for which in 0..5 {
                most[cluster][which] = most[cluster][which].max(used[which]);
            }
        }
    }
    for (cluster, counts) in most.iter().enumerate() {
        case.table[1 + 5 * cluster..6 + 5 * cluster].copy_from_slice(counts);
    }
}

/// Adds an instruction with one more of a class than some count, from 0 to the greatest, which the table then has.
fn crowd(random: &mut Random, case: &mut Case) {
    let (which, opcode, most) = random.pick(&[(1, 1, 7), (2, 24, 4), (3, 52, 4)]);
    let limit = random.between(0, most);
    let cluster = random.index(case.c());
    put(random, case, cluster, opcode, limit + 1);
    case.table[1 + 5 * cluster + which] = limit as u8;
}

/// Adds an instruction with as many additions as a cluster can ever take, or one less; it still loads.
pub fn fill(random: &mut Random, case: &mut Case) {
    let cluster = random.index(case.c());
    let count = random.pick(&[7, 8]);
    put(random, case, cluster, 1, count);
}

/// An instruction with so many syllables of an opcode in one cluster, which gets room for them.
fn put(random: &mut Random, case: &mut Case, cluster: usize, opcode: u32, count: u32) {
    let mut parts: Vec<Part> = (0..cluster).map(|_| Part::new(true, NOP)).collect();
    parts.extend((1..=count).map(|t| Part::new(t == 1, opcode << 24 | t << 18)));
    case.table[1 + 5 * cluster..6 + 5 * cluster].copy_from_slice(&[8, 8, 4, 4, 4]);
    let at = random.index(case.draft.instructions.len());
    case.draft.insert(at, parts);
}

/// Adds an instruction of copies, one too many for a cluster they go to, come from, or both; each other cluster has room, if it can.
fn copies(random: &mut Random, case: &mut Case) {
    let c = case.c();
    if c < 2 {
        return;
    }
    let short = random.index(c);
    let limit = random.between(0, 4) as usize;
    let to_it = match random.below(3) {
        0 => limit + 1,
        1 => 0,
        _ => 1 + random.index(limit.max(1)),
    };
    let other = |index: usize| (short + 1 + index % (c - 1)) % c;
    let copy = |t: usize, source: usize| 60 << 24 | (t as u32) << 18 | source as u32;
    let mut words = vec![Vec::new(); c];
    words[short] = (0..to_it).map(|index| copy(index + 1, other(index))).collect();
    for index in to_it..limit + 1 {
        words[other(index)].push(copy(index + 1, short));
    }
    for (cluster, words) in words.iter_mut().enumerate() {
        if words.is_empty() {
            words.push(NOP);
        }
        case.table[1 + 5 * cluster] = 8;
        case.table[5 + 5 * cluster] = 4;
    }
    case.table[5 + 5 * short] = limit as u8;
    let parts: Vec<Part> = words
        .iter()
        .flat_map(|cluster| cluster.iter().enumerate().map(|(index, &word)| Part::new(index == 0, word)))
        .collect();
    let at = random.index(case.draft.instructions.len());
    case.draft.insert(at, parts);
}

fn two_controls(random: &mut Random, case: &mut Case) {
    let (instruction, _) = any_part(random, &case.draft);
    let many = case.draft.instructions.len();
    let width = case.width(0);
    let parts = &mut case.draft.instructions[instruction];
    let second_cluster = clusters(parts).iter().position(|&cluster| cluster > 0).unwrap_or(parts.len());
    let mut end = second_cluster;
    // Makes room for two in cluster 0.
    while end > 1 && end + 2 > width.max(3) {
        parts.remove(end - 1);
        end -= 1;
    }
    for _ in 0..2 {
        let part = Part::new(false, random.pick(&[STOP, CALL, RETURN, 61 << 24, 62 << 24, 63 << 24]));
        let at = random.between(1, end as u32) as usize;
        let aim = part.has_target().then(|| random.index(many));
        parts.insert(at, Part { aim, ..part });
        end += 1;
    }
    // Mostly the width is no second cause.
    if random.percent(70) {
        case.table[1] = 8;
    }
}
