//! What load came to: the cause, the kind of place, what else was broken, and of programs that load which limits they reach.

use super::refusals::{cluster, control, double, refused};
use super::{class, Tally};
use crate::requests::Program as Call;
use second::answer::Refusal;
use second::load::{self, Lengths, ROOM_SIZE};
use second::program::Program;
use second::syllable::{Class, Register};
use second::table::{self, Table};
use std::cmp::Ordering;

pub fn loaded(tally: &mut Tally, call: &Call) {
    tally.count(format!("room bytes: {}", class(call.room.len() as u64, &[0, 11, 12, 13])));
    match load::load(&call.table, &call.program, Lengths::of_load(call.room.len())) {
        Err(refusal) => turned_away(tally, call, refusal),
        Ok((table, program)) => taken(tally, &table, &program),
    }
}

fn turned_away(tally: &mut Tally, call: &Call, refusal: Refusal) {
    let number = refusal.number;
    tally.count(refused(refusal, &call.table, &call.program));
    if number > 2 {
        tally.count(format!("{number:02} place {}", class(u64::from(refusal.place), &[0, 255])));
    }
    if call.room.len() != ROOM_SIZE {
        tally.count(format!("room not written under {number:02}"));
    }
    if (number, refusal.place) == (2, 0) {
        let (syllables, rest) = (call.program.len() as u64 / 4, call.program.len() % 4);
        tally.count(format!("02 syllables: {}, bytes besides: {rest}", class(syllables, &[0, 4095, 4096, 4097])));
    }
    let syllables = load::syllables(&call.program);
    if number == 1 {
        if load::number_2(call.program.len(), Lengths::of_load(call.room.len())).is_err() {
            tally.count("01 although 02 is broken".to_string());
        }
    } else if (number, refusal.place) == (2, 0) && call.room.len() != ROOM_SIZE {
        tally.count("02 place 0 although the room is bad".to_string());
    } else if number == 2 && refusal.place == 3 && load::number_3(&syllables).is_err() {
        tally.count("02 place 3 although 03 is broken".to_string());
    } else if number == 3 && !load::number_4(&syllables).is_empty() {
        tally.count("03 although 04 is broken lower".to_string());
    } else if number >= 4 {
        named(tally, call, refusal);
        let table = table::read(&call.table).expect("a table that was read");
        besides(tally, &table, call, refusal);
    }
}

/// Where it was: the cluster, for 7 the opcodes that name the register, and which of the operations of opcode 0.
fn named(tally: &mut Tally, call: &Call, refusal: Refusal) {
    let syllables = load::syllables(&call.program);
    let Refusal { number, place, cause } = refusal;
    if let Some(cluster) = cluster(refusal, &call.table, &syllables) {
        let what = cause.split(' ').next().unwrap_or("");
        tally.count(format!("{number:02} {what} in cluster {cluster}"));
    }
    if number == 7 {
        for syllable in double(&syllables, place).0 {
            tally.count(format!("07 by opcode {:02}", syllable.opcode()));
        }
    }
    let syllable = syllables[place as usize];
    if (cause == "bits 17..0" || cause.starts_with("control")) && syllable.opcode() == 0 {
        tally.count(format!("{number:02} {cause}, {}", control(syllable).unwrap_or("nop")));
    }
    if cause.starts_with("bits 23..18") {
        tally.count(format!("04 bits 23..18 are {}", class(u64::from(syllable.bits(23, 18)), &[3, 4, 63])));
    }
}

/// The same number at a higher place, a later number at a lower one, and the causes that share an instruction.
fn besides(tally: &mut Tally, table: &Table, call: &Call, refusal: Refusal) {
    let syllables = load::syllables(&call.program);
    let program = Program::split(&syllables);
    let (number, place) = (refusal.number, refusal.place);
    let of = |number| match number {
        4 => load::number_4(&syllables),
        _ => load::breaks(number, table, &program),
    };
    if of(number).iter().any(|other| other.place > place) {
        tally.count(format!("{number:02} also at a higher place"));
    }
    for later in number + 1..=8 {
        if of(later).iter().any(|other| other.place < place) {
            tally.count(format!("{number:02} although {later:02} is broken lower"));
        }
    }
    if refusal.cause.starts_with("last instruction a ") {
        let same_instruction =
            of(8).into_iter().filter(|other| other.cause.starts_with("target") && other.place >= place);
        for other in same_instruction {
            let apart = if other.place > place { "apart" } else { "at one place" };
            tally.count(format!("08 {}, its target bad too, {apart}", refusal.cause));
        }
    }
}

/// What comes near a refusal and is none.
fn taken(tally: &mut Tally, table: &Table, program: &Program) {
    tally.count(format!("00 loads, C = {}", table.clusters.len()));
    let last = &program.instructions[program.instructions.len() - 1];
    tally.count(format!("00 loads, syllables: {}", class(u64::from(last.following()), &[1, 255, 4095, 4096])));
    let end = last.syllables.iter().find_map(|placed| control(placed.syllable)).expect("an end");
    tally.count(format!("00 loads, the last instruction has a {end}"));
    for instruction in &program.instructions {
        let opened = 1 + instruction.syllables.iter().map(|placed| placed.cluster).max().unwrap_or(0);
        tally.count(format!("00 loads, clusters opened: {opened}"));
        for (cluster, limits) in table.clusters.iter().enumerate() {
            let counts = instruction.counts(cluster as u32);
            let reached = [
                ("width", counts.syllables, limits.width),
                ("ALU", counts.alu, limits.alu),
                ("MUL", counts.mul, limits.mul),
                ("MEM", counts.mem, limits.mem),
                ("COPY", counts.copies_in + counts.copies_out, limits.copy),
            ];
            for (name, count, _) in reached.iter().filter(|(_, count, limit)| *count > 0 && count == limit) {
                tally.count(format!("00 loads, {name} {count} is full"));
            }
            if counts.copies_out > 0 && counts.syllables == 0 {
                tally.count("00 loads, copy from a cluster that is not opened".to_string());
            }
        }
        near_7(tally, instruction);
        for placed in &instruction.syllables {
            tally.count(format!("syllables loaded, opcode {:02}", placed.syllable.opcode()));
        }
        near_8(tally, instruction);
    }
}

/// Calls, alone and with company, where they lead, and returns.
fn near_8(tally: &mut Tally, instruction: &second::program::Instruction) {
    if instruction.is_return() {
        tally.count("00 loads, a return".to_string());
    }
    if instruction.has_call() {
        let company = if instruction.syllables.len() > 1 { "with company" } else { "alone" };
        tally.count(format!("00 loads, a call {company}"));
        let way = match instruction.target().map(|target| target.cmp(&instruction.place)) {
            Some(Ordering::Less) => "backward",
            Some(Ordering::Equal) => "to itself",
            _ if instruction.target() == Some(instruction.following()) => "to the following one",
            _ => "forward",
        };
        tally.count(format!("00 loads, a call {way}"));
    }
}

/// Register 0 twice, and one number for two registers.
fn near_7(tally: &mut Tally, instruction: &second::program::Instruction) {
    let of_register_0 = |placed: &&second::program::Placed| {
        let syllable = placed.syllable;
        let names_t = matches!(syllable.opcode(), 1..=39 | 50..=56 | 60);
        names_t && syllable.class() != Class::Control && syllable.bits(23, 18) == 0
    };
    let zeros: Vec<u32> = instruction.syllables.iter().filter(of_register_0).map(|placed| placed.cluster).collect();
    if (1..zeros.len()).any(|index| zeros[..index].contains(&zeros[index])) {
        tally.count("00 loads, register 0 twice a destination".to_string());
    }
    let split = |register: &Register| match *register {
        Register::General { cluster, number } => (false, cluster, number),
        Register::Branch { cluster, number } => (true, cluster, number),
    };
    let named: Vec<(bool, u32, u32)> = instruction.destinations().iter().map(split).collect();
    for (index, one) in named.iter().enumerate() {
        for other in &named[..index] {
            if one.2 == other.2 {
                tally.count(match (one.0 == other.0, one.1 == other.1) {
                    (true, _) => "00 loads, one number in two clusters".to_string(),
                    (false, true) => "00 loads, one number of both kinds".to_string(),
                    (false, false) => "00 loads, one number of both kinds in two clusters".to_string(),
                });
            }
        }
    }
}
