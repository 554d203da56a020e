//! One fault for each cause: a change of a page at a line, or at the next line where it can be made.

pub mod of_expressions;
pub mod of_labels;
pub mod of_lines;
pub mod of_names;
pub mod of_operands;
pub mod of_registers;
pub mod of_values;

use super::super::random::Random;
use super::operations::{Op, Part};
use super::{Page, Token};

pub type Fault = fn(&mut Random, &mut Page, usize);

pub fn any(random: &mut Random) -> Fault {
    let family: &[Fault] = match random.below(100) {
        0..=23 => &of_lines::FAULTS,
        24..=35 => &of_names::FAULTS,
        36..=45 => &of_registers::FAULTS,
        46..=59 => &of_operands::FAULTS,
        60..=69 => &of_expressions::FAULTS,
        70..=83 => &of_labels::FAULTS,
        _ => &of_values::FAULTS,
    };
    random.pick(family)
}

/// The operation of the first line from an index on whose operation is of a kind.
fn operation(page: &mut Page, at: usize, which: impl Fn(&Op) -> bool) -> Option<&mut Op> {
    let index = page.find(at, |line| line.op.as_ref().is_some_and(&which))?;
    page.lines[index].op.as_mut()
}

/// The tokens of a value on the first line from an index on that has one.
fn value(page: &mut Page, at: usize) -> Option<&mut Vec<Token>> {
    let is_value = |part: &Part| matches!(part, Part::Value(_, tokens) if !tokens.is_empty());
    let op = operation(page, at, |op| op.parts.iter().any(is_value))?;
    op.parts.iter_mut().find_map(|part| match part {
        Part::Value(_, tokens) if !tokens.is_empty() => Some(tokens),
        _ => None,
    })
}

fn token(text: &str) -> Token {
    text.as_bytes().to_vec()
}

/// Where a token stands among an operation's parts.
fn position(op: &Op, text: &str) -> Option<usize> {
    op.parts.iter().position(|part| matches!(part, Part::Token(token) if token == text.as_bytes()))
}

/// Where an operation's name stands: behind its cluster, with mov behind the second one.
fn name_position(op: &Op) -> usize {
    match op.parts.get(1) {
        Some(Part::Token(token)) if token == b"=" => 3.min(op.parts.len() - 1),
        _ => 1.min(op.parts.len() - 1),
    }
}
