//! 18 by registers: how they are spelled, whose they are, and of which kind.

use super::super::operations::{Op, Part};
use super::super::{Page, Token};
use super::{operation, Fault};
use crate::generate::random::Random;

pub const FAULTS: [Fault; 7] =
    [other_cluster, other_cluster, other_kind, number_too_high, needless_zero, misspelled, misspelled];

/// Changes one register of an operation, given as its kind, cluster and number.
fn change(random: &mut Random, page: &mut Page, at: usize, how: impl Fn(&mut Random, char, u32, u32) -> String) {
    let Some(op) = operation(page, at, |op: &Op| !op.registers().is_empty()) else {
        return;
    };
    // General registers are many.
    let is_general = |at: &usize| matches!(&op.parts[*at], Part::Token(token) if token.starts_with(b"$r"));
    let others: Vec<usize> = op.registers().into_iter().filter(|at| !is_general(at)).collect();
    let among = if others.is_empty() || random.percent(40) { op.registers() } else { others };
    let at = random.pick(&among);
    if let Part::Token(token) = &mut op.parts[at] {
        if let Some((kind, cluster, number)) = split(token) {
            *token = how(random, kind, cluster, number).into_bytes();
        }
    }
}

fn split(token: &Token) -> Option<(char, u32, u32)> {
    let text = std::str::from_utf8(token).ok()?;
    let (head, number) = text.strip_prefix('$')?.split_once('.')?;
    Some((head.chars().next()?, head[1..].parse().ok()?, number.parse().ok()?))
}

/// Of another cluster; for copy's source that is none.
fn other_cluster(random: &mut Random, page: &mut Page, at: usize) {
    change(random, page, at, |random, kind, cluster, number| {
        let other = (cluster + random.between(1, 3)) % 4;
        format!("${kind}{other}.{number}")
    });
}

fn other_kind(random: &mut Random, page: &mut Page, at: usize) {
    change(random, page, at, |random, kind, cluster, number| match (kind, random.below(4)) {
        (_, 0) => "$l0.0".to_string(),
        ('r', _) => format!("$b{cluster}.{}", number % 8),
        (_, _) => format!("$r{cluster}.{number}"),
    });
}

fn number_too_high(random: &mut Random, page: &mut Page, at: usize) {
    change(random, page, at, |random, kind, cluster, _| match kind {
        'r' => format!("$r{cluster}.{}", random.pick(&[64, 64, 65, 70, 99, 100, 128, 255, 256, 630])),
        'b' => format!("$b{cluster}.{}", random.pick(&[8, 8, 9, 10, 16, 63, 70])),
        _ => random.pick(&["$l0.1", "$l0.2", "$l0.10", "$l1.0", "$l2.0", "$l3.0", "$l4.0"]).to_string(),
    });
}

fn needless_zero(random: &mut Random, page: &mut Page, at: usize) {
    change(random, page, at, |random, kind, cluster, number| {
        if random.percent(75) {
            format!("${kind}{cluster}.{}{number}", "0".repeat(random.pick(&[1, 1, 2, 9])))
        } else {
            format!("${kind}0{cluster}.{number}")
        }
    });
}

fn misspelled(random: &mut Random, page: &mut Page, at: usize) {
    change(random, page, at, |random, kind, cluster, number| match random.below(16) {
        0 => format!("$ {kind}{cluster}.{number}"),
        1 => format!("${kind} {cluster}.{number}"),
        2 => format!("${kind}{cluster} .{number}"),
        3 => format!("${kind}{cluster}. {number}"),
        4 => format!("${kind}{cluster}"),
        5 => format!("${kind}{cluster}."),
        6 => format!("${kind}.{number}"),
        7 => format!("{kind}{cluster}.{number}"),
        8 => format!("$${kind}{cluster}.{number}"),
        9 => format!("${}{cluster}.{number}", kind.to_ascii_uppercase()),
        10 => format!("${kind}{}.{number}", random.pick(&[4, 5, 9, 10])),
        11 => format!("${kind}{cluster}.{number}x"),
        12 => format!("${kind}{cluster}.{number}.0"),
        13 => format!("$x{cluster}.{number}"),
        14 => format!("$l{}.{}", random.pick(&[0, 1, 1, 2]), random.pick(&[0, 1])),
        _ => format!("${kind}{cluster},{number}"),
    });
}
