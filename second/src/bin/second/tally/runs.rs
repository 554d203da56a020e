//! How runs ended, what they executed and what they started from.

use super::refusals::refused;
use super::roles::roles;
use super::{class, Tally};
use crate::requests::Run;
use second::answer::Refusal;
use second::load::{load, Lengths, IMAGE_SIZE, MOST_MEMORY, ROOM_SIZE};
use second::program::{Instruction, Program};
use second::run::{at, run, step, Landings, PAUSED, STOPPED};
use second::state::State;
use second::syllable::Register;
use second::values;
use std::collections::{BTreeMap, BTreeSet};

pub fn ran(tally: &mut Tally, call: &Run) {
    tally.count(format!(
        "memory bytes: {}",
        class(call.memory.len() as u64, &[0, 16, 256, 4096, 65_535, 65_536, 65_537])
    ));
    // 2,884 bytes are an image without the link register.
    let lengths = [0, 2883, 2884, 2886, 2887, 2888, 2889];
    tally.count(format!("image bytes: {}", class(call.state.len() as u64, &lengths)));
    tally.count(format!("room bytes: {}", class(call.room.len() as u64, &[0, 11, 12, 13])));
    let (mut image, mut memory) = (call.state.clone(), call.memory.clone());
    let outcome = run(&call.table, &call.program, &mut image, &mut memory, &call.landing, call.n, call.room.len());
    let answer = match outcome {
        Ok(answer) => answer,
        Err(refusal) => return turned_away(tally, call, refusal),
    };
    let start = State::from_image(&call.state);
    let in_flight = start.cells.iter().filter(|cell| cell.busy > 0).count();
    tally.count(format!("start: {}", if in_flight > 0 { "results in flight" } else { "quiet" }));
    let (table, program) = load(&call.table, &call.program, Lengths::of_load(12)).expect("a program that ran");
    let clusters = table.clusters.len();
    tally.count(format!("clusters: {clusters}"));
    if start.cells[64 * clusters..256].iter().any(|cell| cell.busy > 0) {
        tally.count("start: results in flight outside the table's clusters".to_string());
    }
    tally.count(format!("start: link {}", link_kind(&program, start.link)));
    tally.count(format!("n: {}", class(u64::from(call.n), &[0, 1, 2, 40, 2000])));
    if let (0, Some(name)) = (call.n, subroutine_control(at(&program, &start))) {
        tally.count(format!("n: 0 at a {name}"));
    }
    tally.count(format!("landing bytes: {}", class(call.landing.len() as u64, &[0, 1, 8, 300])));
    match answer.number {
        PAUSED => {
            tally.count("00 paused".to_string());
            if State::from_image(&image).cells.iter().any(|cell| cell.landing > 0) {
                tally.count("00 paused with results on their way".to_string());
            }
        }
        STOPPED => tally.count(format!("FF stopped after {}", class(u64::from(answer.count), &[0, 10]))),
        number => tally.count(format!("{number} fault after {}", class(u64::from(answer.count), &[0, 10]))),
    }
    let (mut state, mut memory) = (start, call.memory.clone());
    let mut landings = Landings::new(&call.landing);
    let mut results = 0;
    let mut subroutines = Subroutines::default();
    let mut last = None;
    for _ in 0..answer.count {
        let instruction = at(&program, &state);
        results += instruction.destinations().len();
        for placed in &instruction.syllables {
            tally.count(format!("executed opcode {:02}", placed.syllable.opcode()));
        }
        subroutines.executed(tally, instruction);
        last = subroutine_control(instruction);
        let _ = step(&table, &program, &mut state, &mut memory, &mut landings);
    }
    if let (PAUSED, Some(name)) = (answer.number, last) {
        tally.count(format!("00 paused right after a {name}"));
    }
    if answer.number == STOPPED && state.link != 0 {
        tally.count("FF stopped with a link that is not 0".to_string());
    }
    tally.count(format!("landing list: {}", used(results, call.landing.len())));
    if answer.number == STOPPED && state.cells.iter().any(|cell| cell.landing > 0) {
        tally.count("FF stopped with results on their way".to_string());
    }
    if answer.number == 17 {
        tally.count(format!("17 link {}", link_kind(&program, state.link)));
    }
    if matches!(answer.number, 11..=14) {
        let fault = step(&table, &program, &mut state, &mut memory, &mut landings).expect_err("the fault again");
        let problems = problems(at(&program, &state), &state, memory.len());
        tally.count(format!("{} {}; {problems}", fault.number, fault.cause));
        if let [role] = busy_roles(at(&program, &state), &state)[..] {
            tally.count(format!("11 only by {role}"));
        }
        if let Some(name) = subroutine_control(at(&program, &state)) {
            at_call_or_return(tally, &program, &state, answer.number, name, clusters);
        }
    }
}

fn subroutine_control(instruction: &Instruction) -> Option<&'static str> {
    match (instruction.has_call(), instruction.is_return()) {
        (true, _) => Some("call"),
        (_, true) => Some("return"),
        _ => None,
    }
}

/// Where a link leads, were a return to follow it.
fn link_kind(program: &Program, link: u32) -> &'static str {
    match link {
        0 => "0",
        u32::MAX => "2^32 - 1",
        _ if program.starting_at(link).is_some() => "to a first syllable",
        _ if link < program.end() => "inside an instruction",
        _ if link == program.end() => "at the program's end",
        _ if link == program.end() + 1 => "one beyond the program's end",
        _ => "beyond the program",
    }
}

/// What the calls and returns of one run have to do with each other.
#[derive(Default)]
struct Subroutines {
    /// The places that each target was called from.
    callers: BTreeMap<u32, BTreeSet<u32>>,
    /// How many returns have gone by the link of the last call.
    returns: Option<u32>,
}

impl Subroutines {
    fn executed(&mut self, tally: &mut Tally, instruction: &Instruction) {
        if instruction.has_call() {
            let what = match (instruction.syllables.len(), instruction.destinations().len()) {
                (1, _) => "alone",
                (_, 0) => "with company",
                _ => "with results",
            };
            tally.count(format!("executed call {what}"));
            let callers = self.callers.entry(instruction.target().expect("a call's target")).or_default();
            if callers.insert(instruction.place) && callers.len() == 2 {
                tally.count("executed calls of one target from several places".to_string());
            }
            if self.returns == Some(0) {
                tally.count("executed call inside a subroutine".to_string());
            }
            self.returns = Some(0);
        }
        if instruction.is_return() {
            tally.count(match self.returns {
                None => "executed return by the link of the start".to_string(),
                Some(0) => "executed return to behind the last call".to_string(),
                Some(_) => "executed return to behind the last call again".to_string(),
            });
            self.returns = self.returns.map(|returns| returns + 1);
        }
    }
}

/// 11 at a call or a return: which register alone is busy, and whether 17 would come else; 12 to 14 at a call.
fn at_call_or_return(tally: &mut Tally, program: &Program, state: &State, number: u32, name: &str, clusters: usize) {
    if number != 11 {
        tally.count(format!("{number} at a {name}"));
        return;
    }
    let busy: Vec<Register> = Register::ALL.into_iter().filter(|&register| state.cell(register).busy > 0).collect();
    if let [register] = busy[..] {
        let (kind, cluster) = match register {
            Register::General { cluster, .. } => ("general", cluster as usize),
            Register::Branch { cluster, .. } => ("branch", cluster as usize),
        };
        let place = match cluster {
            0 => "cluster 0",
            _ if cluster < clusters => "another cluster",
            _ => "a cluster not below C",
        };
        tally.count(format!("11 at a {name} by a {kind} register of {place} alone"));
    }
    if name == "return" && program.starting_at(state.link).is_none() {
        tally.count("11 at a return although 17 would be too".to_string());
    }
}

/// The number and cause of a refusal; for 2 also which of its four cases held together, for a room that stays unwritten why.
fn turned_away(tally: &mut Tally, call: &Run, refusal: Refusal) {
    if refusal.number == 2 {
        tally.count(refused(refusal, &call.table, &call.program));
        let bad_program = refusal.place == 0;
        let cases = [
            (bad_program, "program"),
            (call.memory.len() > MOST_MEMORY, "memory"),
            (call.state.len() != IMAGE_SIZE, "image"),
            (call.room.len() != ROOM_SIZE, "room"),
        ];
        let broken: Vec<&str> = cases.iter().filter(|(broken, _)| *broken).map(|(_, name)| *name).collect();
        tally.count(format!("02 place {} of {}", refusal.place, broken.join(", ")));
    } else {
        tally.count(format!("{:02} {}", refusal.number, refusal.cause));
    }
    if call.room.len() != ROOM_SIZE {
        tally.count(format!("room not written under {:02}", refusal.number));
    }
}

/// How far the landing bytes went for so many results.
fn used(results: usize, bytes: usize) -> &'static str {
    match (results, bytes) {
        (0, _) => "no result",
        (_, 0) => "empty, every result past its end",
        _ if results > bytes => "some results past its end",
        _ => "long enough",
    }
}

/// The roles in which the instruction names busy registers.
fn busy_roles(instruction: &Instruction, state: &State) -> Vec<&'static str> {
    let mut named = [instruction.reads(), instruction.destinations()].concat();
    named.retain(|&register| state.cell(register).busy > 0);
    let mut roles: Vec<&str> = named.iter().flat_map(|&register| roles(instruction, register)).collect();
    roles.sort();
    roles.dedup();
    roles
}

/// The first two bad accesses in their order, and whether stores share a byte besides.
fn problems(instruction: &Instruction, state: &State, memory: usize) -> String {
    let mut bad = Vec::new();
    let mut stores: Vec<(u64, u64)> = Vec::new();
    let mut share = false;
    for placed in &instruction.syllables {
        let syllable = placed.syllable;
        if !syllable.is_load() && !syllable.is_store() {
            continue;
        }
        let base = state.cell(syllable.s1(placed.cluster).expect("a base")).value;
        let address = u64::from(values::address(base, syllable.offset()));
        let size = values::access_size(syllable.opcode()) as u64;
        let (misaligned, beyond) = (address % size != 0, address + size > memory as u64);
        match (misaligned, beyond) {
            (true, true) => bad.push("12+13"),
            (true, false) => bad.push("12"),
            (false, true) => bad.push("13"),
            (false, false) => {}
        }
        if syllable.is_store() {
            share |= stores.iter().any(|&(other, length)| other < address + size && address < other + length);
            stores.push((address, size));
        }
    }
    bad.truncate(2);
    let bad = if bad.is_empty() { "no bad access".to_string() } else { bad.join(" then ") };
    format!("{bad}{}", if share { ", stores share" } else { "" })
}
