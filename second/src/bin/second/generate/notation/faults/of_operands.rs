//! 18 by what follows a name: too much, too little, in another order, or a value where a register must be.

use super::super::operations::{general, Op, Part};
use super::super::{expressions, Page};
use super::{operation, position, token, Fault};
use crate::generate::random::Random;

pub const FAULTS: [Fault; 8] = [
    part_left_out,
    part_doubled,
    parts_exchanged,
    part_replaced,
    sources_exchanged,
    value_for_a_register,
    register_for_a_value,
    sign_changed,
];

fn has_operands(op: &Op) -> bool {
    op.parts.len() > 2
}

fn part_left_out(random: &mut Random, page: &mut Page, at: usize) {
    if let Some(op) = operation(page, at, has_operands) {
        op.parts.remove(random.index(op.parts.len()));
    }
}

fn part_doubled(random: &mut Random, page: &mut Page, at: usize) {
    if let Some(op) = operation(page, at, |op| op.parts.len() > 1) {
        let at = random.index(op.parts.len());
        op.parts.insert(at, op.parts[at].clone());
    }
}

fn parts_exchanged(random: &mut Random, page: &mut Page, at: usize) {
    if let Some(op) = operation(page, at, |op| op.parts.len() > 1) {
        let one = random.index(op.parts.len() - 1);
        let other = if random.percent(70) { one + 1 } else { random.index(op.parts.len()) };
        op.parts.swap(one, other);
    }
}

fn part_replaced(random: &mut Random, page: &mut Page, at: usize) {
    if let Some(op) = operation(page, at, |op| op.parts.len() > 1) {
        let other = random.pick(&[
            "a", "c0", "c1", "add", "5", "$r0.1", "$b0.1", "$l0.0", "=", ",", "[", "]", "(", ")", "+", "-", "*", ":",
            ";;", ";",
        ]);
        let at = random.index(op.parts.len());
        op.parts[at] = Part::Token(token(other));
    }
}

/// What stands on both sides of the comma after `=`; sub has it the other way round.
fn sources_exchanged(_: &mut Random, page: &mut Page, at: usize) {
    let has_sources = |op: &Op| op.has_value() && position(op, ",") == Some(op.parts.len() - 2);
    if let Some(op) = operation(page, at, has_sources) {
        let comma = op.parts.len() - 2;
        op.parts.swap(comma - 1, comma + 1);
    }
}

fn value_for_a_register(random: &mut Random, page: &mut Page, at: usize) {
    let labels = page.labels.clone();
    if let Some(op) = operation(page, at, |op| !op.registers().is_empty()) {
        let at = random.pick(&op.registers());
        let value = i64::from(random.below(8));
        let tokens = expressions::of_value(random, value, &labels).join(&b' ');
        op.parts[at] = Part::Token(tokens);
    }
}

/// For an immediate, one of another cluster or kind, since one of its own may stand there.
fn register_for_a_value(random: &mut Random, page: &mut Page, at: usize) {
    if let Some(op) = operation(page, at, Op::has_value) {
        let other = (op.cluster + random.below(4)) % 4;
        let register = match random.below(4) {
            0 => token(&format!("$b{}.1", op.cluster)),
            1 => token("$l0.0"),
            _ => general(random, other),
        };
        let is_value = |part: &Part| matches!(part, Part::Value(..));
        if let Some(part) = op.parts.iter_mut().find(|part| is_value(part)) {
            *part = Part::Token(register);
        }
    }
}

fn sign_changed(random: &mut Random, page: &mut Page, at: usize) {
    let is_sign = |part: &Part| matches!(part, Part::Token(token) if matches!(&token[..], b"=" | b"," | b"[" | b"]"));
    if let Some(op) = operation(page, at, |op| op.parts.iter().any(is_sign)) {
        let signs: Vec<usize> = (0..op.parts.len()).filter(|&at| is_sign(&op.parts[at])).collect();
        let sign = random.pick(&["=", ",", "[", "]", "(", ")", "==", ",,", ":", "-", ";"]);
        op.parts[random.pick(&signs)] = Part::Token(token(sign));
    }
}
