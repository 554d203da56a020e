//! 19: labels given twice, and missing.

use super::super::{Line, Page, Token};
use super::{token, value, Fault};
use crate::generate::random::Random;

pub const FAULTS: [Fault; 6] = [given_twice, given_twice, missing, missing, giving_spoiled, other_case];

/// A label once more, where one may stand, on a line of its own or before an operation.
fn given_twice(random: &mut Random, page: &mut Page, at: usize) {
    let Some(given) = page.find(at, |line| line.front.len() == 2) else {
        return;
    };
    let front = page.lines[given].front.clone();
    for _ in 0..random.weighted(&[(75, 1), (20, 2), (5, 3)]) {
        let at = if random.percent(60) { random.index(page.lines.len() + 1) } else { at.min(page.lines.len()) };
        let free = (at..=page.lines.len()).find(|&index| !page.open_before(index)).unwrap_or(0);
        match page.lines.get_mut(free) {
            Some(line) if line.front.is_empty() && line.op.is_some() && random.percent(60) => {
                line.front = front.clone()
            }
            _ => page.lines.insert(free, Line { front: front.clone(), ..Line::default() }),
        }
    }
}

/// A use of a label that no line gives, alone or beside others.
fn missing(random: &mut Random, page: &mut Page, at: usize) {
    if let Some(tokens) = value(page, at) {
        let name = token(random.pick(&["missing", "add", "c0", "c2", "nop", "mov", "x", "_", "l0.0", "L0"]));
        match random.below(4) {
            0 => *tokens = vec![name],
            1 => tokens.extend([token("+"), name]),
            // Where it has no weight, and beside what would be 20.
            2 => tokens.extend([token("+"), token("0"), token("*"), name]),
            _ => tokens.extend([token("+"), token("9999999999"), token("*"), name]),
        }
    }
}

/// A label whose giving is left out, has no colon, stands behind, or is a comment's.
fn giving_spoiled(random: &mut Random, page: &mut Page, at: usize) {
    if let Some(at) = page.find(at, |line| line.front.len() == 2) {
        let front: Vec<Token> = std::mem::take(&mut page.lines[at].front);
        page.lines[at].front = match random.below(5) {
            0 => vec![],
            1 => vec![front[0].clone()],
            2 => vec![token("other"), token(":"), front[0].clone(), token(":")],
            3 => vec![[b"#", &front[0][..], b":"].concat()],
            _ => vec![vec![0xFF], front[0].clone(), token(":")],
        };
    }
}

/// Upper and lower case differ.
fn other_case(_: &mut Random, page: &mut Page, at: usize) {
    if let Some(tokens) = value(page, at) {
        for name in tokens.iter_mut().filter(|token| !token.starts_with(b"0")) {
            let change = |byte: u8| {
                if byte.is_ascii_lowercase() {
                    byte.to_ascii_uppercase()
                } else {
                    byte.to_ascii_lowercase()
                }
            };
            *name = name.iter().map(|&byte| change(byte)).collect();
        }
    }
}
