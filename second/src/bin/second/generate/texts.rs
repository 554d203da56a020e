//! Inputs of the text program, valid and damaged.

use super::breaks::{of_table, Case};
use super::draft::Draft;
use super::random::Random;
use super::{checks, loads, runs, schedule};
use second::load::{load, Lengths};
use second::state::State;

/// What a text says, before it is written down.
struct Said {
    table: Vec<u8>,
    memory: u32,
    n: u32,
    words: Vec<u32>,
}

pub fn input(random: &mut Random) -> Vec<u8> {
    let said = match random.below(100) {
        0..=14 => refused(random),
        _ => good(random),
    };
    let mut text = written(&said);
    if random.percent(50) {
        for _ in 0..random.pick(&[1, 1, 1, 2, 3]) {
            random.pick(&DAMAGES)(random, &mut text);
        }
        keep_n_small(&mut text);
    }
    text.truncate(40_000);
    text
}

/// A text that is accepted.
fn good(random: &mut Random) -> Said {
    let memory = runs::memory_length(random).min(random.pick(&[16_383, 16_384]));
    let table = checks::table(random);
    let mut draft = runs::program(random, &table, memory, runs::SUBROUTINES);
    if random.percent(75) {
        schedule::repair(&table, &mut draft, 300);
    }
    if random.below(300) == 0 {
        repeat(&mut draft);
    }
    let (parsed, program) = load(&table, &draft.bytes(), Lengths::of_load(12)).expect("a program that loads");
    let n = runs::number_of_instructions(random, &parsed, &program, &State::zero(), &vec![0; memory], &[]);
    Said { table, memory: memory as u32, n, words: draft.words() }
}

/// Lengthens a draft to about what a text can hold.
fn repeat(draft: &mut Draft) {
    let once = draft.clone();
    while draft.syllables() + once.syllables() < 3600 {
        draft.instructions.extend(once.instructions.clone());
    }
}

/// A text of the right form whose memory, table or program is refused, or nearly.
fn refused(random: &mut Random) -> Said {
    let mut said = good(random);
    // With another memory or program a run may not end.
    said.n = said.n.min(100);
    let which = random.between(1, 7);
    if which & 1 != 0 {
        said.memory = random.pick(&[16_384, 16_385, 16_385, 65_536, 0x8000_0000, 0xFFFF_FFFF]);
    }
    if which & 2 != 0 {
        let call = loads::call(random);
        let to_words = |bytes: &[u8]| u32::from_be_bytes([bytes[0], bytes[1], bytes[2], bytes[3]]);
        said.table = call.table;
        said.words = call.program.chunks_exact(4).map(to_words).collect();
    }
    if which == 4 {
        let mut case = Case { table: said.table, draft: Draft::default() };
        random.pick(&of_table::BREAKS)(random, &mut case);
        said.table = case.table;
    }
    if random.percent(10) {
        said.words.clear();
    }
    said
}

/// The lines, one instruction a line.
fn written(said: &Said) -> Vec<u8> {
    let table: Vec<String> = said.table.iter().map(|byte| format!("{byte:02X}")).collect();
    let mut text = format!("{}\n{:08X}\n{:08X}\n", table.join(" "), said.memory, said.n);
    let mut line: Vec<String> = Vec::new();
    for (index, word) in said.words.iter().enumerate() {
        line.push(format!("{word:08X}"));
        if word >> 31 == 1 || index == said.words.len() - 1 {
            text += &format!("{}\n", line.join(" "));
            line.clear();
        }
    }
    text.into_bytes()
}

type Damage = fn(&mut Random, &mut Vec<u8>);

const DAMAGES: [Damage; 22] = [
    // Lower case.
    |random, text| replace_one(random, text, |byte| byte.is_ascii_uppercase(), |byte| byte.to_ascii_lowercase()),
    // The last newline missing.
    |_, text| {
        text.pop();
    },
    // Double, leading and trailing blanks.
    |random, text| insert_at(random, text, |byte| byte == b' ', b" "),
    |random, text| insert_after_newline(random, text, b" "),
    |random, text| insert_at(random, text, |byte| byte == b'\n', b" "),
    // Empty lines, at the end too.
    |random, text| insert_after_newline(random, text, b"\n"),
    |_, text| text.push(b'\n'),
    |_, text| text.insert(0, b'\n'),
    // Other blanks.
    |random, text| replace_one(random, text, |byte| byte == b' ', |_| b'\t'),
    |random, text| insert_at(random, text, |byte| byte == b'\n', b"\r"),
    // A digit too few or too many.
    |random, text| {
        if !text.is_empty() {
            text.remove(random.index(text.len()));
        }
    },
    |random, text| insert_at(random, text, |byte| byte.is_ascii_hexdigit(), b"0"),
    // Lines missing.
    |random, text| {
        let lines = random.below(4) as usize;
        let ends = places(text, |byte| byte == b'\n');
        let length = if lines == 0 { 0 } else { ends.get(lines - 1).map_or(text.len(), |end| end + 1) };
        text.truncate(length);
    },
    |random, text| text.truncate(random.index(text.len() + 1)),
    // Too long by one or more, or just not too long.
    |random, text| {
        let length = random.pick(&[32_768, 32_769, 32_769, 40_000]);
        while text.len() < length {
            text.extend(b"C0000000\n");
        }
        text.truncate(length);
    },
    // Two instructions on one line: bit 31 before the last.
    |random, text| replace_late(random, text, b'\n', b' '),
    // One instruction on two lines: bit 31 missing.
    |random, text| replace_late(random, text, b' ', b'\n'),
    // A second item on line 2 or 3.
    |random, text| {
        let ends = places(text, |byte| byte == b'\n');
        if ends.len() > 2 {
            let at = ends[random.between(1, 2) as usize];
            text.splice(at..at, b" 00000001".iter().copied());
        }
    },
    // No digits.
    |random, text| {
        let strange = random.pick(b"GgXx@/:`-.\0\x80\xFF");
        replace_one(random, text, |byte| byte.is_ascii_hexdigit(), |_| strange);
    },
    // Any byte anywhere.
    |random, text| {
        if !text.is_empty() {
            let at = random.index(text.len());
            text[at] = random.word() as u8;
        }
    },
    // Any digit to another: the form stays good, the sense may not.
    |random, text| {
        let digit = random.pick(b"0123456789ABCDEF");
        replace_one(random, text, |byte| byte.is_ascii_hexdigit(), |_| digit);
    },
    // Nothing planned at all.
    |random, text| {
        let length = random.index(60);
        *text = (0..length).map(|_| random.pick(b"0123456789ABCDEF  \n\n")).collect();
    },
];

/// A changed text might run without end; a line 3 that is a number is made a small one.
fn keep_n_small(text: &mut [u8]) {
    let ends = places(text, |byte| byte == b'\n');
    if ends.len() > 2 {
        let line = &mut text[ends[1] + 1..ends[2]];
        if line.len() == 8 && line.iter().all(|byte| b"0123456789ABCDEF".contains(byte)) {
            line[..5].fill(b'0');
        }
    }
}

fn places(text: &[u8], which: impl Fn(u8) -> bool) -> Vec<usize> {
    (0..text.len()).filter(|&at| which(text[at])).collect()
}

fn replace_one(random: &mut Random, text: &mut [u8], which: impl Fn(u8) -> bool, by: impl Fn(u8) -> u8) {
    let places = places(text, which);
    if !places.is_empty() {
        let at = random.pick(&places);
        text[at] = by(text[at]);
    }
}

/// Replaces one such byte after line 3, if there is one.
fn replace_late(random: &mut Random, text: &mut [u8], which: u8, by: u8) {
    let head = places(text, |byte| byte == b'\n').get(2).map_or(0, |end| end + 1);
    let last = text.len().saturating_sub(1);
    if head < last {
        replace_one(random, &mut text[head..last], |byte| byte == which, |_| by);
    }
}

fn insert_at(random: &mut Random, text: &mut Vec<u8>, which: impl Fn(u8) -> bool, what: &[u8]) {
    let places = places(text, which);
    if !places.is_empty() {
        let at = random.pick(&places);
        text.splice(at..at, what.iter().copied());
    }
}

fn insert_after_newline(random: &mut Random, text: &mut Vec<u8>, what: &[u8]) {
    let places = places(text, |byte| byte == b'\n');
    if !places.is_empty() {
        let at = random.pick(&places) + 1;
        text.splice(at..at, what.iter().copied());
    }
}
