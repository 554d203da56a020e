//! 18 by what a line is and by where its label and its `;;` stand.

use super::super::operations::{self, Part};
use super::super::{Line, Page};
use super::{token, Fault};
use crate::generate::random::Random;

pub const FAULTS: [Fault; 19] = [
    stray_byte,
    stray_byte,
    byte_order_mark,
    two_operations,
    label_behind,
    end_in_front,
    two_labels,
    two_ends,
    lone_semicolon,
    end_of_nothing,
    end_behind_a_label,
    label_inside,
    label_inside,
    line_inside,
    line_inside,
    label_at_the_open_end,
    no_label,
    word_behind,
    end_left_out,
];

const STRAYS: &[u8] = b"\x00\x01\x0B\x0C\x1F!\"%&'/<>@\\^`{|}~\x7F\x80\x85\xA0\xBB\xC3\xFE\xFF$.?;";

/// A byte that no token has, or that begins none.
fn stray_byte(random: &mut Random, page: &mut Page, at: usize) {
    let stray = vec![random.pick(STRAYS)];
    let line = &mut page.lines[at];
    match (random.below(3), &mut line.op) {
        (0, _) => line.front.insert(random.index(line.front.len() + 1), stray),
        (1, Some(op)) => op.parts.insert(random.index(op.parts.len() + 1), Part::Token(stray)),
        _ => line.back.insert(random.index(line.back.len() + 1), stray),
    }
}

fn byte_order_mark(random: &mut Random, page: &mut Page, at: usize) {
    let at = if random.percent(70) { 0 } else { at };
    page.lines[at].front.insert(0, b"\xEF\xBB\xBF".to_vec());
}

fn two_operations(random: &mut Random, page: &mut Page, at: usize) {
    if let Some(at) = page.find(at, |line| line.op.is_some()) {
        let cluster = random.below(4);
        let tokens = operations::any(random, cluster, &page.labels).tokens();
        let back = &mut page.lines[at].back;
        if random.percent(50) {
            back.splice(0..0, tokens);
        } else {
            back.extend(tokens);
        }
    }
}

fn label_behind(_: &mut Random, page: &mut Page, at: usize) {
    if let Some(at) = page.find(at, |line| !line.front.is_empty() && (line.op.is_some() || !line.back.is_empty())) {
        let front = std::mem::take(&mut page.lines[at].front);
        page.lines[at].back.extend(front);
    }
}

fn end_in_front(_: &mut Random, page: &mut Page, at: usize) {
    if let Some(at) = page.find(at, |line| line.ends() && line.op.is_some()) {
        let back = std::mem::take(&mut page.lines[at].back);
        page.lines[at].front.extend(back);
    }
}

fn two_labels(random: &mut Random, page: &mut Page, at: usize) {
    if let Some(at) = page.find(at, |line| !line.front.is_empty()) {
        let name = random.pick(&["second", "add", "c0"]);
        page.lines[at].front.extend([token(name), token(":")]);
    }
}

fn two_ends(random: &mut Random, page: &mut Page, at: usize) {
    if let Some(at) = page.find(at, Line::ends) {
        page.lines[at].back.push(token(random.pick(&[";;", ";;", ";;;", ";"])));
    }
}

fn lone_semicolon(random: &mut Random, page: &mut Page, at: usize) {
    let line = &mut page.lines[at];
    line.back = vec![token(random.pick(&[";", "; ;", ";\t;", ";#;"]))];
}

/// A `;;` with nothing since the last one.
fn end_of_nothing(random: &mut Random, page: &mut Page, at: usize) {
    let end = Line { back: vec![token(";;")], ..Line::default() };
    match page.find(at, Line::ends) {
        Some(at) if random.percent(80) => page.lines.insert(at + 1, end),
        _ => page.lines.insert(0, end),
    }
}

fn end_behind_a_label(_: &mut Random, page: &mut Page, at: usize) {
    if let Some(at) = page.find(at, |line| line.op.is_none() && !line.front.is_empty()) {
        page.lines[at].back.push(token(";;"));
    }
}

/// A label while an instruction is open: new, given elsewhere too, or moved from where it was.
fn label_inside(random: &mut Random, page: &mut Page, at: usize) {
    let Some(inside) = page.find_open(at) else {
        return;
    };
    let given = page.find(at, |line| !line.front.is_empty());
    let front = match (random.below(3), given) {
        (0, Some(given)) => std::mem::take(&mut page.lines[given].front),
        (1, Some(given)) => page.lines[given].front.clone(),
        _ => vec![token("inside"), token(":")],
    };
    if random.percent(50) {
        page.lines[inside].front = front;
    } else {
        page.lines.insert(inside, Line { front, ..Line::default() });
    }
}

/// An operation inside an instruction that does not count, often of a higher cluster than the one that follows it.
fn line_inside(random: &mut Random, page: &mut Page, at: usize) {
    if let Some(inside) = page.find_open(at) {
        let cluster = random.pick(&[0, 1, 2, 3, 3, 3]);
        let mut line = Line::of(operations::any(random, cluster, &page.labels));
        if random.percent(50) {
            line.front = vec![token("within"), token(":")];
        } else {
            line.back.push(token(random.pick(&["$", "x", ";", ","])));
        }
        if random.percent(40) {
            line.back.push(token(";;"));
        }
        page.lines.insert(inside, line);
    }
}

/// The last instruction without its `;;`, and a label after it.
fn label_at_the_open_end(random: &mut Random, page: &mut Page, _: usize) {
    if let Some(last) = page.lines.iter_mut().rev().find(|line| line.ends()) {
        last.back.clear();
    }
    let name = page.labels.first().map_or(token("last"), |(name, _)| name.clone());
    let name = if random.percent(70) { token("last") } else { name };
    page.lines.push(Line::labelled(&name));
}

/// What is no label, or lacks its colon.
fn no_label(random: &mut Random, page: &mut Page, at: usize) {
    let front = &mut page.lines[at].front;
    *front = match (random.below(4), &front[..]) {
        (0, [name, _]) => vec![name.clone()],
        (1, [name, colon]) => vec![name.clone(), colon.clone(), colon.clone()],
        (2, [name, colon]) => vec![[b"1", &name[..]].concat(), colon.clone()],
        _ => {
            let name =
                random.pick(&["", "1", "1a", "?a", ".a", "$a", "a-b", "a b", "a,", "(a)", "$r0.1", "-a", "\u{e4}"]);
            vec![token(name), token(":")]
        }
    };
}

fn word_behind(random: &mut Random, page: &mut Page, at: usize) {
    let word = random.pick(&["x", "c0", "5", ",", "=", ":", "nop", "]", ")", "$r0.1", "+", "=5", "[$r0.1]"]);
    page.lines[at].back.push(token(word));
}

/// Two instructions become one: a cluster may fall, a label may stand inside.
fn end_left_out(_: &mut Random, page: &mut Page, at: usize) {
    if let Some(at) = page.find(at, Line::ends) {
        page.lines[at].back.clear();
    }
}
