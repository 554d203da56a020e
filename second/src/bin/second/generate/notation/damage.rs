//! Changes without a plan.

use super::super::random::Random;
use super::Token;

const TOKENS: [&str; 44] = [
    "a",
    "b",
    "a",
    ":",
    ":",
    "c0",
    "c0",
    "c1",
    "c2",
    "c3",
    "nop",
    "add",
    "sub",
    "cmpeq",
    "copy",
    "mov",
    "ldw",
    "stw",
    "goto",
    "br",
    "call",
    "return",
    "$r0.1",
    "$r1.1",
    "$b0.1",
    "$l0.0",
    "=",
    "=",
    ",",
    ",",
    "[",
    "]",
    "(",
    ")",
    "+",
    "-",
    "*",
    "0",
    "5",
    "2147483647",
    ";;",
    ";;",
    "\n",
    "\n",
];

/// Bytes without a plan.
pub fn bytes(random: &mut Random) -> Vec<u8> {
    let length = random.weighted(&[(2, 0), (5, 3), (5, 30), (1, 300)]);
    if random.percent(50) {
        return random.bytes(length);
    }
    (0..length).map(|_| random.pick(b"ac01nop$r0.1b:;;=,()[]+-*#  \t\r\n\n")).collect()
}

/// Tokens without a plan.
pub fn tokens(random: &mut Random) -> Vec<u8> {
    let count = random.weighted(&[(5, 2), (5, 6), (3, 30)]);
    let mut text = Vec::new();
    for _ in 0..count {
        text.extend(random.pick(&TOKENS).as_bytes());
        if random.percent(80) {
            text.push(b' ');
        }
    }
    text
}

/// Two tokens of one line or two lines exchanged, a line doubled, a line left out.
pub fn swap_tokens_or_lines(random: &mut Random, lines: &mut Vec<Vec<Token>>) {
    let at = random.index(lines.len());
    let other = random.index(lines.len());
    match random.below(6) {
        0 | 1 if lines[at].len() > 1 => {
            let (one, two) = (random.index(lines[at].len()), random.index(lines[at].len()));
            lines[at].swap(one, two);
        }
        2 => lines.swap(at, other),
        3 => lines.insert(other, lines[at].clone()),
        4 if lines.len() > 1 => {
            lines.remove(at);
        }
        _ => {}
    }
}

/// A byte or some changed, left out or put in; a newline more or less; the text's end cut off.
pub fn change(random: &mut Random, text: &mut Vec<u8>) {
    const TELLING: &[u8] = b"\0\t\n\r #$()*+,-.0123:;=?@ABC[]_abclrz\x7F\x80\xEF\xFF";
    for _ in 0..random.weighted(&[(80, 1), (15, 2), (5, 4)]) {
        if text.is_empty() {
            return;
        }
        let at = random.index(text.len());
        let byte = if random.percent(80) { random.pick(TELLING) } else { random.word() as u8 };
        match random.below(10) {
            0..=2 => text[at] = byte,
            3 | 4 => text.insert(at, byte),
            5..=7 => {
                text.remove(at);
            }
            8 => {
                let ends: Vec<usize> = (0..text.len()).filter(|&index| text[index] == b'\n').collect();
                if !ends.is_empty() {
                    text[random.pick(&ends)] = b' ';
                }
            }
            _ => text.truncate(at),
        }
    }
}
