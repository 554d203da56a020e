//! What kind of clash check found.

use super::roles::roles;
use super::ways::{self, Nexts};
use super::{class, Tally};
use second::check::Clash;
use second::program::{Instruction, Program};
use second::syllable::{Class, Register};
use second::table::Table;
use std::cmp::Ordering;
use std::collections::BTreeSet;

pub fn refused(tally: &mut Tally, table: &Table, program: &Program, clash: Clash) {
    let (producer, consumer) = (clash.producer, clash.consumer);
    let way = match consumer.cmp(&producer) {
        Ordering::Less => "consumer below",
        Ordering::Equal => "its own consumer",
        Ordering::Greater => "consumer above",
    };
    tally.count(format!("09 {way}"));
    tally.count(format!("09 producer at {}", class(u64::from(producer), &[0, 255])));
    tally.count(format!("09 consumer at {}", class(u64::from(consumer), &[0, 255])));
    if !from_the_start(program).contains(&producer) {
        tally.count("09 producer cannot be reached".to_string());
    }
    let producer = program.starting_at(producer).expect("a producer");
    let consumer = program.starting_at(consumer).expect("a consumer");
    others(tally, table, program, producer, consumer);
    let steps = fewest_steps(program, producer, consumer.place);
    let shared = producer.results(table).into_iter().filter(|(register, _)| ways::touches(consumer, *register));
    for (register, delay) in shared.filter(|(_, delay)| steps < *delay) {
        let kind = if matches!(register, Register::Branch { .. }) { "branch" } else { "general" };
        tally.count(format!("09 {kind} register, delay {delay}, {steps} steps on"));
        if matches!(register, Register::Branch { number: 0, .. }) {
            tally.count("09 branch register 0".to_string());
        }
        // A role that stands alone decides; others might hide that it is not looked at.
        if let [role] = roles(consumer, register)[..] {
            tally.count(format!("09 consumer only by {role}"));
            if matches!(role, "call" | "return") {
                tally.count(format!("09 consumer only by {role}, {kind} register"));
                if steps == delay - 1 {
                    tally.count(format!("09 consumer only by {role} at the last step, delay {delay}"));
                }
            }
        }
        for role in roles(producer, register).iter().filter(|role| role.contains("destination")) {
            tally.count(format!("09 producer by {role}"));
        }
        tally.count(format!("09 by the delay {}", delay_name(producer, register)));
    }
}

/// What the lowest pair was chosen from, and the ways that lead to it.
fn others(tally: &mut Tally, table: &Table, program: &Program, producer: &Instruction, consumer: &Instruction) {
    let consumers = ways::consumers(table, program, producer, ways::all);
    let over = consumers.iter().filter(|&&place| place > 255).count();
    if consumers.len() > 1 {
        tally.count("09 several consumers".to_string());
    }
    if over > 0 && over < consumers.len() {
        tally.count("09 consumers on both sides of place 256".to_string());
    }
    if consumers.iter().any(|place| place % 256 < consumer.place % 256) {
        tally.count("09 a higher consumer with a lower last byte".to_string());
    }
    let steps = |place: &u32| fewest_steps(program, producer, *place);
    if consumers.iter().any(|place| steps(place) < steps(&consumer.place)) {
        tally.count("09 the lowest consumer is not the nearest".to_string());
    }
    let mut later = program.instructions.iter().filter(|other| other.place > producer.place);
    if later.any(|other| !ways::consumers(table, program, other, ways::all).is_empty()) {
        tally.count("09 several producers".to_string());
    }
    let wrong_ways: [(Nexts, &str); 3] = [
        (ways::taken, "branch's following one"),
        (ways::passed_by, "branch's target"),
        (ways::past_calls, "call's target"),
    ];
    for (nexts, name) in wrong_ways {
        if !ways::consumers(table, program, producer, nexts).contains(&consumer.place) {
            tally.count(format!("09 only by a {name}"));
        }
    }
    let further: [(Nexts, &str); 2] = [(ways::calls_as_branches, "call"), (ways::past_returns, "return")];
    for (nexts, name) in further {
        if ways::consumers(table, program, producer, nexts).iter().any(|&place| place < consumer.place) {
            tally.count(format!("09 a lower consumer behind a {name}"));
        }
    }
}

/// The delay by which the result is late.
fn delay_name(producer: &Instruction, register: Register) -> &'static str {
    if matches!(register, Register::Branch { .. }) {
        return "CMPB";
    }
    let writer =
        producer.syllables.iter().find(|placed| placed.syllable.destinations(placed.cluster).contains(&register));
    match writer.expect("a writer").syllable.class() {
        Class::Alu => "ALU",
        Class::Mul => "MUL",
        Class::Mem => "LOAD",
        _ => "COPY",
    }
}

/// The places that can be reached from place 0.
fn from_the_start(program: &Program) -> BTreeSet<u32> {
    let mut reached = BTreeSet::from([0]);
    let mut new = vec![0];
    while let Some(place) = new.pop() {
        let nexts = program.starting_at(place).expect("a loaded place").nexts();
        new.extend(nexts.into_iter().filter(|&next| reached.insert(next)));
    }
    reached
}

fn fewest_steps(program: &Program, from: &Instruction, to: u32) -> u32 {
    let sets = ways::reached(program, from.place, 8, ways::all);
    (1..=8).find(|&steps| sets[steps as usize].contains(&to)).unwrap_or(9)
}
