//! 18 by expressions.

use super::super::expressions::depth;
use super::super::{Page, Token};
use super::{token, value, Fault};
use crate::generate::random::Random;

pub const FAULTS: [Fault; 7] =
    [too_deep, too_deep, sign_in_front, token_left_out, token_put_in, unbalanced, no_expression];

/// Brackets inside 16 open ones, around the whole, the first factor or the last one.
fn too_deep(random: &mut Random, page: &mut Page, at: usize) {
    if let Some(tokens) = value(page, at) {
        let wanted = random.pick(&[17, 17, 17, 18, 33, 300]);
        let open = |count: usize| vec![token("("); count];
        let close = |count: usize| vec![token(")"); count];
        if random.percent(60) {
            let count = wanted - depth(tokens).min(16);
            *tokens = [open(count), tokens.clone(), close(count)].concat();
        } else {
            tokens.push(token("+"));
            tokens.extend([open(wanted), vec![token("0")], close(wanted)].concat());
        }
    }
}

fn sign_in_front(random: &mut Random, page: &mut Page, at: usize) {
    if let Some(tokens) = value(page, at) {
        let begins = |token: &Token| token.starts_with(b"(") || token.first().is_some_and(u8::is_ascii_alphanumeric);
        let factors: Vec<usize> = (0..tokens.len()).filter(|&at| begins(&tokens[at])).collect();
        if !factors.is_empty() {
            tokens.insert(random.pick(&factors), token(random.pick(&["-", "+", "*", "--"])));
        }
    }
}

fn token_left_out(random: &mut Random, page: &mut Page, at: usize) {
    if let Some(tokens) = value(page, at) {
        tokens.remove(random.index(tokens.len()));
    }
}

fn token_put_in(random: &mut Random, page: &mut Page, at: usize) {
    if let Some(tokens) = value(page, at) {
        let new = random.pick(&[
            "+", "-", "*", "(", ")", "0", "5", "x", "$r0.1", "[", "]", ",", "=", "/", "%", "0x10", "5.0", "1e3", "'a'",
            ".", "()", "12ab",
        ]);
        tokens.insert(random.index(tokens.len() + 1), token(new));
    }
}

fn unbalanced(random: &mut Random, page: &mut Page, at: usize) {
    if let Some(tokens) = value(page, at) {
        let bracket: Token = token(random.pick(&["(", ")"]));
        let at = random.pick(&[0, tokens.len(), tokens.len() / 2]);
        tokens.insert(at, bracket);
    }
}

fn no_expression(random: &mut Random, page: &mut Page, at: usize) {
    if let Some(tokens) = value(page, at) {
        let none = ["", "()", "(", ")", "-", "(5", "5)", "5 5", "x x", "5 x", "[5]", "+5", "5+", "5*", "(5)(5)"];
        *tokens = random.pick(&none).split_whitespace().map(token).collect();
    }
}
