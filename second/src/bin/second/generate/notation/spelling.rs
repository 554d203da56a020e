//! Lines as bytes: blanks of every kind wherever they may stand, comments, empty lines, line ends.

use super::super::random::Random;
use super::Token;

#[derive(Clone, Copy)]
enum Blanks {
    /// Only between tokens that would be read as one.
    Needed,
    Single,
    Any,
}

pub fn written(random: &mut Random, lines: &[Vec<Token>]) -> Vec<u8> {
    let blanks = random.weighted(&[(30, Blanks::Needed), (35, Blanks::Single), (35, Blanks::Any)]);
    let carriage_returns = random.weighted(&[(60, 0), (20, 100), (20, 30)]);
    let comments = random.weighted(&[(45, 0), (40, 15), (15, 60)]);
    let empty_lines = random.weighted(&[(60, 0), (30, 10), (10, 50)]);
    let mut text = Vec::new();
    for line in lines {
        while random.percent(empty_lines) {
            finish(random, &mut text, blanks, comments, carriage_returns);
        }
        for (index, token) in line.iter().enumerate() {
            let needed = index > 0 && would_join(&line[index - 1], token);
            put_blanks(random, &mut text, blanks, needed);
            text.extend(token);
        }
        finish(random, &mut text, blanks, comments, carriage_returns);
    }
    // A last line without a newline is a line too.
    if random.percent(30) {
        text.pop();
    }
    text
}

/// Whether two tokens without a blank between would be read as others.
fn would_join(before: &[u8], after: &[u8]) -> bool {
    let in_name = |byte: Option<&u8>| byte.is_some_and(|byte| byte.is_ascii_alphanumeric() || b"_?.$".contains(byte));
    in_name(before.last()) && in_name(after.first().filter(|&&byte| byte != b'$'))
        || before.last() == Some(&b';') && after.first() == Some(&b';')
}

fn put_blanks(random: &mut Random, text: &mut Vec<u8>, blanks: Blanks, needed: bool) {
    match blanks {
        Blanks::Needed if needed => text.push(random.pick(b" \t\r")),
        Blanks::Needed => {}
        Blanks::Single => text.push(b' '),
        Blanks::Any => {
            let least = u32::from(needed);
            let count = random.weighted(&[(50, least), (30, 1), (15, 2), (5, 9)]);
            text.extend((0..count).map(|_| random.pick(b"   \t\r")));
        }
    }
}

/// Blanks, a comment and the line's end.
fn finish(random: &mut Random, text: &mut Vec<u8>, blanks: Blanks, comments: u32, carriage_returns: u32) {
    if random.percent(20) {
        put_blanks(random, text, blanks, false);
    }
    if random.percent(comments) {
        text.extend(comment(random));
    }
    if random.percent(carriage_returns) {
        text.push(b'\r');
    }
    text.push(b'\n');
}

/// A comment of any bytes but a newline.
fn comment(random: &mut Random) -> Vec<u8> {
    match random.below(6) {
        0 => b"#".to_vec(),
        1 => b"## of the manual's kind".to_vec(),
        2 => b"# c0 nop ;; # $r9.99 x:".to_vec(),
        3 => b"#;;".to_vec(),
        _ => {
            let length = random.weighted(&[(8, 3), (3, 20), (1, 300)]);
            let mut bytes = random.bytes(length);
            bytes.iter_mut().filter(|byte| **byte == b'\n').for_each(|byte| *byte = 0);
            [b"#", &bytes[..]].concat()
        }
    }
}
