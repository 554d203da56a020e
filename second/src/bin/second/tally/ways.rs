//! Who is reached from an instruction, by the nexts of the paper or by others that a wrong checker might follow.

use second::program::{Instruction, Program};
use second::syllable::Register;
use second::table::Table;
use std::collections::BTreeSet;

pub type Nexts = fn(&Instruction) -> Vec<u32>;

pub fn all(instruction: &Instruction) -> Vec<u32> {
    instruction.nexts()
}

/// Branches are always taken.
pub fn taken(instruction: &Instruction) -> Vec<u32> {
    instruction.nexts().into_iter().take(1).collect()
}

/// Branches are never taken.
pub fn passed_by(instruction: &Instruction) -> Vec<u32> {
    instruction.nexts().into_iter().last().into_iter().collect()
}

/// A stop goes on to the following one.
pub fn past_stops(instruction: &Instruction) -> Vec<u32> {
    if instruction.is_stop() {
        vec![instruction.following()]
    } else {
        instruction.nexts()
    }
}

/// A goto goes on to the following one.
pub fn past_gotos(instruction: &Instruction) -> Vec<u32> {
    if instruction.has_goto() {
        vec![instruction.following()]
    } else {
        instruction.nexts()
    }
}

/// A call goes on to the following one.
pub fn past_calls(instruction: &Instruction) -> Vec<u32> {
    if instruction.has_call() {
        vec![instruction.following()]
    } else {
        instruction.nexts()
    }
}

/// A call goes to its target or on to the following one.
pub fn calls_as_branches(instruction: &Instruction) -> Vec<u32> {
    if instruction.has_call() {
        vec![instruction.target().expect("a call's target"), instruction.following()]
    } else {
        instruction.nexts()
    }
}

/// A return goes on to the following one.
pub fn past_returns(instruction: &Instruction) -> Vec<u32> {
    if instruction.is_return() {
        vec![instruction.following()]
    } else {
        instruction.nexts()
    }
}

/// The places reached by exactly so many nexts, one set for each number from 0 on.
pub fn reached(program: &Program, from: u32, most: u32, nexts: Nexts) -> Vec<BTreeSet<u32>> {
    let mut sets = vec![BTreeSet::from([from])];
    for steps in 0..most as usize {
        let here = sets[steps].iter().filter_map(|&place| program.starting_at(place));
        sets.push(here.flat_map(nexts).filter(|&place| program.starting_at(place).is_some()).collect());
    }
    sets
}

pub fn touches(instruction: &Instruction, register: Register) -> bool {
    instruction.reads().contains(&register) || instruction.destinations().contains(&register)
}

/// The instructions that touch a result of the producer too soon.
pub fn consumers(table: &Table, program: &Program, producer: &Instruction, nexts: Nexts) -> BTreeSet<u32> {
    let results = producer.results(table);
    let longest = results.iter().map(|(_, delay)| *delay).max().unwrap_or(1);
    let sets = reached(program, producer.place, longest - 1, nexts);
    let mut consumers = BTreeSet::new();
    for (register, delay) in results {
        for place in sets[1..delay as usize].iter().flatten() {
            if program.starting_at(*place).is_some_and(|instruction| touches(instruction, register)) {
                consumers.insert(*place);
            }
        }
    }
    consumers
}
