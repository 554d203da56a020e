//! Texts in order 2's notation: good ones in every spelling, each fault by each of its causes, and whatever random changes make.

pub mod damage;
pub mod edits;
pub mod expressions;
pub mod faults;
pub mod operations;
pub mod plan;
pub mod probes;
pub mod spelling;

use super::random::Random;
use faults::Fault;
use operations::Op;

pub type Token = Vec<u8>;

/// A line before it is spelled; a fault may have put any tokens anywhere.
#[derive(Clone, Default)]
pub struct Line {
    /// A label with its colon.
    pub front: Vec<Token>,
    pub op: Option<Op>,
    /// `;;`.
    pub back: Vec<Token>,
}

impl Line {
    pub fn of(op: Op) -> Line {
        Line { op: Some(op), ..Line::default() }
    }

    pub fn labelled(name: &[u8]) -> Line {
        Line { front: vec![name.to_vec(), b":".to_vec()], ..Line::default() }
    }

    pub fn ends(&self) -> bool {
        self.back.iter().any(|token| token == b";;")
    }

    fn tokens(&self) -> Vec<Token> {
        let op = self.op.iter().flat_map(|op| op.tokens()).collect();
        [self.front.clone(), op, self.back.clone()].concat()
    }
}

/// A text's lines, and the labels with their values as they were before any fault.
#[derive(Clone, Default)]
pub struct Page {
    pub lines: Vec<Line>,
    pub labels: Vec<(Token, i64)>,
}

impl Page {
    /// The first such line from an index on, the first ones coming after the last.
    pub fn find(&self, from: usize, which: impl Fn(&Line) -> bool) -> Option<usize> {
        let count = self.lines.len();
        (from..from + count).map(|index| index % count).find(|&index| which(&self.lines[index]))
    }

    /// Whether an instruction is open before a line, as the lines stand.
    pub fn open_before(&self, index: usize) -> bool {
        let last = self.lines[..index].iter().rev().find(|line| line.op.is_some() || line.ends());
        last.is_some_and(|line| !line.ends())
    }

    /// The first line from an index on before which an instruction is open.
    pub fn find_open(&self, from: usize) -> Option<usize> {
        let count = self.lines.len();
        (from..from + count).map(|index| index % count).find(|&index| self.open_before(index))
    }
}

pub fn text(random: &mut Random) -> Vec<u8> {
    match random.below(400) {
        0 => return plan::full(random),
        1 => return plan::long(random),
        2..=9 => return damage::bytes(random),
        10..=25 => return damage::tokens(random),
        _ => {}
    }
    let mut page = plan::page(random);
    let count = random.weighted(&[(34, 0), (38, 1), (14, 2), (7, 3), (4, 4), (3, 5)]);
    // All on one line, or anywhere.
    let one = random.percent(35).then(|| random.index(page.lines.len()));
    for _ in 0..count {
        let at = one.unwrap_or_else(|| random.index(page.lines.len()));
        let fault: Fault = faults::any(random);
        fault(random, &mut page, at);
    }
    let mut lines: Vec<Vec<Token>> = page.lines.iter().map(Line::tokens).collect();
    let damaged = random.percent(18);
    if damaged {
        damage::swap_tokens_or_lines(random, &mut lines);
    }
    let mut text = spelling::written(random, &lines);
    if damaged && random.percent(60) {
        damage::change(random, &mut text);
    }
    if random.percent(if count > 0 { 45 } else { 15 }) {
        text = probes::probed(random, text);
    }
    text
}

#[cfg(test)]
mod tests {
    use super::*;
    use second::assemble::assemble;

    #[test]
    fn pages_without_faults_are_read() {
        for index in 0..2000 {
            let mut random = Random::new(11, index);
            let page = plan::page(&mut random);
            let lines: Vec<Vec<Token>> = page.lines.iter().map(Line::tokens).collect();
            let text = spelling::written(&mut random, &lines);
            let read = assemble(&text, 4096, 12);
            assert!(read.is_ok(), "page {index}: {:?}\n{}", read.err(), text.escape_ascii());
        }
    }
}
