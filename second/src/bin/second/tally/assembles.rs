//! What texts came to: the cause, what else was wrong and where, and of texts that are read how they are written.

use super::misreads::misread;
use super::spellings::spelled;
use super::{class, Tally};
use crate::requests::Assemble;
use second::answer::Refusal;
use second::assemble::instructions::Text;
use second::assemble::lines::{lines, read};
use second::assemble::refusals::{faults, Fault};
use second::assemble::tokens::{tokens, Token};
use second::load::{MOST_SYLLABLES, ROOM_SIZE};
use second::{assemble, source};
use std::cmp::Ordering;
use std::collections::{BTreeMap, BTreeSet};

pub fn assembled(tally: &mut Tally, call: &Assemble) {
    tally.count(format!("room bytes: {}", class(call.room.len() as u64, &[0, 11, 12, 13])));
    match assemble::assemble(&call.text, call.program.len() / 4, call.room.len()) {
        Ok(instructions) => {
            let behind = match call.program.len() - 4 * instructions.concat().len() {
                0 => "nothing",
                1..=3 => "some bytes",
                _ => "whole words",
            };
            tally.count(format!("00 behind the syllables {behind}"));
            spelled(tally, &call.text);
        }
        Err(refusal) => turned_away(tally, call, refusal),
    }
}

fn turned_away(tally: &mut Tally, call: &Assemble, refusal: Refusal) {
    if call.room.len() != ROOM_SIZE {
        tally.count(format!("room not written under {:02}", refusal.number));
        if (refusal.number, refusal.place) == (2, 0) {
            tally.count("02 place 0 although the room is bad".to_string());
        }
    }
    if refusal.cause == "more than the program holds" {
        let instructions = assemble::assemble(&call.text, MOST_SYLLABLES, ROOM_SIZE).expect("a text that is read");
        let missing = 4 * instructions.concat().len() - call.program.len();
        tally.count(format!("02 bytes that the program lacks: {}", class(missing as u64, &[1, 3, 4, 5])));
    }
    refused(tally, &call.text, refusal);
}

/// The program assemble takes the texts of the entry, so only sizes and numbers are told.
pub fn printed(tally: &mut Tally, input: &[u8]) {
    let limit = source::MOST_INPUT as u64;
    let bytes = class(input.len() as u64, &[0, 65_536, limit - 1, limit, limit + 1]);
    match source::read(input) {
        Ok(_) => tally.count(format!("00 printed, bytes: {bytes}")),
        Err(Refusal { number, place, cause }) => {
            tally.count(format!("{number:02} refused, bytes: {bytes}"));
            if place == 0 {
                tally.count(format!("{number:02} {cause}"));
            }
        }
    }
}

fn refused(tally: &mut Tally, text: &[u8], refusal: Refusal) {
    let Refusal { number, place, cause } = refusal;
    if number < 18 {
        tally.count(format!("{number:02} {cause}, place {place}"));
        return;
    }
    tally.count(format!("{number} on line {}", class(u64::from(place), &[1, 255])));
    let line = lines(text).nth(place as usize - 1).expect("the refused line").1;
    match number {
        18 => misread(tally, line, cause),
        _ => tally.count(format!("{number} {cause}")),
    }
    let whole = Text::read(text);
    let faults = faults(&whole);
    others(tally, &faults, refusal);
    if number == 18 && read(line).label.is_some() {
        tally.count("18 on a line with a label".to_string());
    }
    if number == 18 && tokens(line).contains(&Token::End) {
        tally.count("18 on a line with ;;".to_string());
    }
    values_above(tally, text, &whole, place);
}

/// The faults that were not named.
fn others(tally: &mut Tally, faults: &[Fault], refusal: Refusal) {
    let mut others = BTreeSet::new();
    for fault in faults {
        match fault.line.cmp(&refusal.place) {
            Ordering::Equal if fault.number > refusal.number => others.insert((fault.number, "on its line")),
            Ordering::Greater => others.insert((fault.number, "on a higher line")),
            _ => false,
        };
    }
    for (number, place) in others {
        tally.count(format!("{} although {number} {place}", refusal.number));
    }
}

/// Labels whose values decided that a line above the refused one is good, by what is odd about their giving.
fn values_above(tally: &mut Tally, text: &[u8], whole: &Text, refused: u32) {
    let mut givings: BTreeMap<&[u8], Vec<u32>> = BTreeMap::new();
    for (number, line) in lines(text) {
        if let Some(name) = read(line).label {
            givings.entry(name).or_default().push(number);
        }
    }
    let bad: BTreeMap<u32, &str> =
        whole.faults.iter().filter(|fault| fault.number == 18).map(|fault| (fault.line, fault.cause)).collect();
    let operations = whole.instructions.iter().flat_map(|instruction| &instruction.operations);
    let mut seen = BTreeSet::new();
    for (_, operation) in operations.filter(|(line, _)| *line < refused) {
        for name in operation.value.iter().flat_map(|value| value.expression.uses()) {
            let lines = &givings[name];
            seen.insert(match bad.get(&lines[0]) {
                Some(&"no label while an instruction is open") => "given inside an instruction",
                Some(_) => "given on a line with 18",
                None if bad.keys().any(|line| *line < lines[0]) => "given below a line with 18",
                None if lines.len() > 1 => "given twice",
                None => continue,
            });
        }
    }
    for giving in seen {
        tally.count(format!("a line above the refused one uses a label {giving}"));
    }
}
