//! How near a program that check passes comes to a clash.

use super::ways::{self, Nexts};
use super::Tally;
use second::program::{Instruction, Program};
use second::syllable::{Register, Syllable};
use second::table::Table;

pub fn passed(tally: &mut Tally, table: &Table, program: &Program) {
    let results = program.instructions.iter().flat_map(|instruction| instruction.results(table));
    let longest = results.map(|(_, delay)| delay).max().unwrap_or(0);
    tally.count(format!("00 passes, longest delay {longest}"));
    for producer in &program.instructions {
        on_time(tally, table, program, producer);
        near(tally, table, program, producer);
    }
    // Whatever is in flight before a call or a return is refused there; a call's own results are not.
    let wrong_ways: [(Nexts, &str); 3] =
        [(ways::past_stops, "stop"), (ways::past_gotos, "goto"), (ways::past_calls, "call")];
    for (nexts, name) in wrong_ways {
        if program.instructions.iter().any(|producer| !ways::consumers(table, program, producer, nexts).is_empty()) {
            tally.count(format!("00 passes, a consumer only behind a {name}"));
        }
    }
}

/// A register touched by its own producer, and just when its delay is over.
fn on_time(tally: &mut Tally, table: &Table, program: &Program, producer: &Instruction) {
    for (register, delay) in producer.results(table) {
        let sets = ways::reached(program, producer.place, delay, ways::all);
        let touching = |place: &u32| program.starting_at(*place).is_some_and(|other| ways::touches(other, register));
        if sets[delay as usize].iter().any(touching) {
            tally.count(format!("00 passes, touched {delay} steps on with delay {delay}"));
        }
        let kind = if matches!(register, Register::Branch { .. }) { "branch" } else { "general" };
        let there = || sets[delay as usize].iter().filter_map(|place| program.starting_at(*place));
        if there().any(|other| other.has_call()) {
            tally.count(format!("00 passes, a call when the delay of a {kind} register is over"));
        }
        if there().any(|other| other.is_return()) {
            tally.count(format!("00 passes, a return when the delay of a {kind} register is over"));
        }
        if producer.has_call() && delay > 1 {
            tally.count("00 passes, a call has results in flight".to_string());
        }
        if delay > 1 && producer.reads().contains(&register) {
            tally.count("00 passes, an instruction reads its own destination".to_string());
        }
    }
}

/// Registers that look like the one in flight, touched within its delay.
fn near(tally: &mut Tally, table: &Table, program: &Program, producer: &Instruction) {
    for (register, delay) in results_to_register_0(producer, table).into_iter().chain(producer.results(table)) {
        let sets = ways::reached(program, producer.place, delay - 1, ways::all);
        let near = sets[1..].iter().flatten().filter_map(|place| program.starting_at(*place));
        for other in near.flat_map(|instruction| [instruction.reads(), instruction.destinations()].concat()) {
            let what = match (register, other) {
                (Register::General { number: 0, .. }, other) if other == register => "register 0",
                (Register::General { number: 0, .. }, _) => continue,
                (Register::General { cluster, number }, Register::General { cluster: c, number: n })
                | (Register::Branch { cluster, number }, Register::Branch { cluster: c, number: n })
                    if number == n && cluster != c =>
                {
                    "the same number of another cluster"
                }
                (Register::General { cluster, number }, Register::Branch { cluster: c, number: n })
                | (Register::Branch { cluster, number }, Register::General { cluster: c, number: n })
                    if number == n && cluster == c =>
                {
                    "the same number of the other kind"
                }
                _ => continue,
            };
            tally.count(format!("00 passes, {what} within the delay"));
        }
    }
}

/// What an instruction writes to register 0, with the delay it would have.
fn results_to_register_0(instruction: &Instruction, table: &Table) -> Vec<(Register, u32)> {
    let names_t = |syllable: Syllable| matches!(syllable.opcode(), 1..=39 | 50..=56 | 60);
    let to_0 =
        instruction.syllables.iter().filter(|placed| names_t(placed.syllable) && placed.syllable.bits(23, 18) == 0);
    to_0.map(|placed| {
        let register = Register::General { cluster: placed.cluster, number: 0 };
        (register, placed.syllable.delay(register, table))
    })
    .collect()
}
