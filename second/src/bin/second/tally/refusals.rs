//! Which of a number's cases a refusal was.

use second::answer::Refusal;
use second::load;
use second::program::{Counts, Program};
use second::syllable::{Register, Syllable};
use second::table::{self, Cluster};

/// Number, place kind and cause; where a cause differs by field, cluster, limit or opcode, that too.
pub fn refused(refusal: Refusal, table: &[u8], program: &[u8]) -> String {
    let Refusal { number, place, cause } = refusal;
    let words = load::syllables(program);
    let at = || words[place as usize];
    let detail = match number {
        1 => field(table),
        2 if place == 0 => format!("place 0, {}", size_kind(program.len())),
        2 => format!("place {place}"),
        4 => format!("opcode {:02}", at().opcode()),
        5 if cause.starts_with("control") => format!("opcode {:02}", at().opcode()),
        5 if cause.starts_with("bit 30") => String::new(),
        5 => format!("C = {}", table[0]),
        6 => over(refusal, table, &words),
        7 => doubled(&words, place),
        8 if cause.starts_with("target") => format!("opcode {:02}", at().opcode()),
        8 if cause.ends_with("company") => with_company(&words, place),
        _ => String::new(),
    };
    format!("{number:02} {cause}{}{detail}", if detail.is_empty() { "" } else { ", " })
}

/// Where the table breaks a limit that has a place of its own: the cluster or the delay; for a length the C it goes with.
fn field(table: &[u8]) -> String {
    let c = usize::from(table.first().copied().unwrap_or(0));
    if !(1..=4).contains(&c) {
        return if table.len() == 6 + 5 * c { "with the length of it" } else { "" }.to_string();
    }
    if table.len() != 6 + 5 * c {
        let apart = table.len().abs_diff(6 + 5 * c);
        return format!("C = {c}, by {}", if apart == 1 { "one" } else { "more" });
    }
    let clusters = table[1..1 + 5 * c].chunks(5);
    let bad =
        |counts: &[u8]| !(1..=8).contains(&counts[0]) || counts[1] > 8 || counts[2..].iter().any(|&count| count > 4);
    if let Some(cluster) = clusters.into_iter().position(bad) {
        return format!("cluster {cluster}");
    }
    let bad = |delay: &u8| !(1..=8).contains(delay);
    table[1 + 5 * c..].iter().position(bad).map_or("", |at| ["ALU", "CMPB", "MUL", "LOAD", "COPY"][at]).to_string()
}

/// By how much an instruction is over a limit, or which two control syllables it has.
fn over(refusal: Refusal, table: &[u8], words: &[Syllable]) -> String {
    let program = Program::split(words);
    let instruction = program.starting_at(refusal.place).expect("an instruction's place");
    if let Some(cluster) = cluster(refusal, table, words) {
        let table = table::read(table).expect("a table that was read");
        let (count, limit) = limited(&instruction.counts(cluster), &table.clusters[cluster as usize], refusal.cause);
        return format!("{} above {limit}", if count == limit + 1 { "one" } else { "more" });
    }
    let mut controls: Vec<&str> = instruction.syllables.iter().filter_map(|placed| control(placed.syllable)).collect();
    controls.sort();
    if controls.len() == 2 {
        controls.join(" and ")
    } else {
        "more".to_string()
    }
}

/// What is counted for a cause of 6, and its limit.
fn limited(counts: &Counts, limits: &Cluster, cause: &str) -> (u32, u32) {
    match cause {
        "width" => (counts.syllables, limits.width),
        "ALU" => (counts.alu, limits.alu),
        "MUL" => (counts.mul, limits.mul),
        "MEM" => (counts.mem, limits.mem),
        _ => (counts.copies_in + counts.copies_out, limits.copy),
    }
}

pub fn control(syllable: Syllable) -> Option<&'static str> {
    match syllable.opcode() {
        61 => Some("goto"),
        62 => Some("br"),
        63 => Some("brf"),
        0 if syllable.is_stop() => Some("stop"),
        0 if syllable.is_call() => Some("call"),
        0 if syllable.is_return() => Some("return"),
        _ => None,
    }
}

fn size_kind(length: usize) -> &'static str {
    match length {
        0 => "empty",
        _ if length % 4 != 0 => "no multiple of 4",
        _ => "over 4,096 syllables",
    }
}

/// What the doubled register is and whether addcg names it.
fn doubled(words: &[Syllable], place: u32) -> String {
    let ([first, second], register) = double(words, place);
    let by = if first.opcode() == 23 || second.opcode() == 23 { " by addcg" } else { "" };
    match register {
        Register::General { .. } => format!("general{by}"),
        Register::Branch { number: 0, .. } => format!("branch 0{by}"),
        Register::Branch { .. } => format!("branch{by}"),
    }
}

/// The first two syllables of an instruction that name one destination.
pub fn double(words: &[Syllable], place: u32) -> ([Syllable; 2], Register) {
    let program = Program::split(words);
    let instruction = program.starting_at(place).expect("an instruction's place");
    let mut seen: Vec<(Register, Syllable)> = Vec::new();
    for placed in &instruction.syllables {
        for register in placed.syllable.destinations(placed.cluster) {
            if let Some((_, other)) = seen.iter().find(|(known, _)| *known == register) {
                return ([*other, placed.syllable], register);
            }
            seen.push((register, placed.syllable));
        }
    }
    unreachable!("refusal 7 has a double")
}

/// The cluster in which 5 was broken by control or copy, in which 6 was by a count, or whose register 7 found twice.
pub fn cluster(refusal: Refusal, table: &[u8], words: &[Syllable]) -> Option<u32> {
    let Refusal { number, place, cause } = refusal;
    let program = Program::split(words);
    let mut placed = program.instructions.iter().flat_map(|instruction| &instruction.syllables);
    match number {
        5 if cause.starts_with("co") => placed.find(|placed| placed.place == place).map(|placed| placed.cluster),
        6 if !cause.starts_with("two") => {
            let table = table::read(table).expect("a table that was read");
            let over = |cluster: &usize| {
                let counts = program.starting_at(place).expect("an instruction's place").counts(*cluster as u32);
                let (count, limit) = limited(&counts, &table.clusters[*cluster], cause);
                count > limit
            };
            (0..table.clusters.len()).find(over).map(|cluster| cluster as u32)
        }
        7 => match double(words, place).1 {
            Register::General { cluster, .. } | Register::Branch { cluster, .. } => Some(cluster),
        },
        _ => None,
    }
}

/// Whether the company comes before or after the stop or return, in another cluster, and whether it is a nop.
fn with_company(words: &[Syllable], place: u32) -> String {
    let place = place as usize;
    let is_last = words[place].ends_instruction();
    let other = if is_last { words[place - 1] } else { words[place + 1] };
    let what = if other.opcode() == 0 { "a nop" } else { "another" };
    let side = match (is_last, other.starts_cluster()) {
        (true, _) => "before",
        (false, true) => "after in another cluster",
        (false, false) => "after",
    };
    format!("{what} {side}")
}
