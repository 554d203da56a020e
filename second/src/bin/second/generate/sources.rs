//! Inputs of the program assemble: the texts of assemble, and now and then one about as long as it may be.

use super::notation::text;
use super::random::Random;
use second::source::MOST_INPUT;

pub fn input(random: &mut Random) -> Vec<u8> {
    let mut text = text(random);
    if random.below(60) == 0 {
        let length = random.pick(&[MOST_INPUT, MOST_INPUT, MOST_INPUT + 1, MOST_INPUT + 1, MOST_INPUT - 1, 300_000]);
        lengthen(random, &mut text, length);
    }
    text
}

/// Puts lines that mean nothing, or one long one, before, behind or inside.
fn lengthen(random: &mut Random, text: &mut Vec<u8>, length: usize) {
    let unit: &[u8] = random.weighted(&[
        (4, &b"\n"[..]),
        (4, b" "),
        (4, b"# comment\n"),
        (2, b"#"),
        (2, b"\r\n"),
        (1, b"x:"),
        (1, b"("),
    ]);
    let missing = length.saturating_sub(text.len());
    let filling: Vec<u8> = unit.iter().copied().cycle().take(missing).collect();
    let inside = random.index(text.len() + 1);
    let at = random.weighted(&[(4, 0), (4, text.len()), (1, inside)]);
    text.splice(at..at, filling);
}
