//! Calls of check: programs that load, about half of them refused with 9.

use super::build::{self, Style};
use super::draft::{Draft, Part, CALL, NOP, STOP};
use super::random::Random;
use super::{loads, schedule, tables};
use crate::requests::Program;
use second::syllable::Register;
use second::table::Table;

pub fn call(random: &mut Random) -> Program {
    // check gives refusals 1 to 8 as load does.
    if random.percent(6) {
        return loads::call(random);
    }
    if random.percent(1) {
        return astride(random);
    }
    let refused = random.percent(52);
    let mut tried = 0;
    loop {
        let table = table(random);
        let mut draft = if refused { clashing(random, &table) } else { passing(random, &table) };
        if random.below(400) == 0 {
            lengthen(random, &mut draft);
        }
        tried += 1;
        if schedule::passes(&table, &draft) != refused || tried == 20 {
            return Program { table, program: draft.bytes(), room: random.bytes(12) };
        }
    }
}

/// Room for operations, delays from end to end of their limits.
pub fn table(random: &mut Random) -> Vec<u8> {
    let mut table = if random.percent(70) { tables::roomy(random) } else { tables::any(random) };
    if random.percent(30) {
        let at = table.len() - 1 - random.index(5);
        table[at] = 8;
    }
    table
}

fn passing(random: &mut Random, table: &[u8]) -> Draft {
    let mut draft = program(random, table);
    schedule::repair(table, &mut draft, 300);
    if random.percent(25) {
        way_back(random, table, &mut draft);
    }
    draft
}

fn clashing(random: &mut Random, table: &[u8]) -> Draft {
    let mut draft = program(random, table);
    match random.below(10) {
        0..=2 => {}
        // Several clashes are left, the lowest ones repaired.
        3 | 4 => {
            let limit = random.between(1, 20) as usize;
            schedule::repair(table, &mut draft, limit);
        }
        // One nop too few: the clash is at the last step.
        5 | 6 => {
            schedule::repair(table, &mut draft, 300);
            let idle = schedule::idle(&draft);
            if !idle.is_empty() {
                draft.remove(random.pick(&idle));
            }
        }
        _ => {
            schedule::repair(table, &mut draft, 300);
            way_back(random, table, &mut draft);
        }
    }
    draft
}

fn program(random: &mut Random, table: &[u8]) -> Draft {
    let parsed = second::table::read(table).expect("a good table");
    let style = Style {
        registers: random.pick(&[3, 6, 12, 24, 64]),
        branches: random.pick(&[1, 3, 8]),
        crowd: random.pick(&[1, 1, 2, 4]),
        memory: None,
        gotos: random.pick(&[3, 8, 20]),
        branchings: random.pick(&[5, 15, 35]),
        calls: random.pick(&[0, 0, 8]),
        stops: random.pick(&[0, 3, 6]),
        returns: random.pick(&[0, 0, 6]),
        subroutines: 25,
    };
    let most = random.pick(&[4, 8, 16, 24, 32]);
    let count = random.between(2, most) as usize;
    build::program(random, &parsed, &style, count)
}

/// Adds a producer at the end whose way leads back to a consumer, in time or one step too early.
fn way_back(random: &mut Random, table: &[u8], draft: &mut Draft) {
    let parsed = second::table::read(table).expect("a good table");
    let consumer = random.index(draft.instructions.len());
    let instruction = &draft.split().instructions[consumer];
    let touched: Vec<Register> = [instruction.reads(), instruction.destinations()].concat();
    // call and return read registers of clusters too that nobody can write here.
    let touched: Vec<Register> = touched.into_iter().filter(|&register| is_written(&parsed, register)).collect();
    if touched.is_empty() {
        return;
    }
    let register = random.pick(&touched);
    let Some((cluster, word, delay)) = producer(random, &parsed, register) else { return };
    let steps = random.pick(&[1, delay.max(2) - 1, delay.max(2) - 1, delay, delay]);
    let mut parts: Vec<Part> = (0..cluster).map(|_| Part::new(true, NOP)).collect();
    parts.push(Part::new(true, word));
    let goto = Part { opens: true, word: 61 << 24, aim: Some(consumer) };
    if steps == 1 {
        // The goto, or a call, goes with the producer, in cluster 0.
        let way = if random.percent(40) { Part { word: CALL, ..goto } } else { goto };
        match cluster {
            0 if parsed.clusters[0].width > 1 => parts.push(Part { opens: false, ..way }),
            0 => return,
            _ => parts[0] = way,
        }
        draft.instructions.push(parts);
        if way.word == CALL {
            draft.instructions.push(vec![Part::new(true, STOP)]);
        }
    } else {
        draft.instructions.push(parts);
        draft.instructions.extend((2..steps).map(|_| vec![Part::new(true, NOP)]));
        draft.instructions.push(vec![goto]);
    }
}

fn is_written(table: &Table, register: Register) -> bool {
    let (Register::General { cluster, .. } | Register::Branch { cluster, .. }) = register;
    !register.is_register_0() && (cluster as usize) < table.clusters.len()
}

/// A syllable that gives the register a result, with its delay, if the table has room for one.
fn producer(random: &mut Random, table: &Table, register: Register) -> Option<(u32, u32, u32)> {
    match register {
        Register::Branch { cluster, number } => {
            let room = table.clusters[cluster as usize].alu > 0;
            room.then_some((cluster, 40 << 24 | number << 18, table.cmpb_delay))
        }
        Register::General { cluster, number } => {
            let limits = &table.clusters[cluster as usize];
            let choices = [
                (limits.alu, 1, table.alu_delay),
                (limits.mul, 24, table.mul_delay),
                (limits.mem, 52, table.load_delay),
            ];
            let (count, opcode, delay) = random.pick(&choices);
            (count > 0).then_some((cluster, opcode << 24 | number << 18, delay))
        }
    }
}

/// A producer with a consumer on each way of a branch, at places around 256.
fn astride(random: &mut Random) -> Program {
    let mut table = tables::roomy(random);
    let at = table.len() - 3;
    table[at] = random.between(2, 8) as u8;
    let idle = |count: u32| (0..count).map(|_| vec![Part::new(true, NOP)]);
    let (before, between) = (random.between(1, 300), random.between(0, 300));
    let reads = vec![Part::new(true, 1 << 24 | 2 << 18 | 1 << 12)];
    let mut instructions: Vec<Vec<Part>> = idle(before).collect();
    // The multiplication and the branch, then the consumer of the way straight on.
    let branch = Part { opens: false, word: 62 << 24, aim: Some(0) };
    instructions.push(vec![Part::new(true, 24 << 24 | 1 << 18), branch]);
    instructions.push(reads.clone());
    instructions.extend(idle(between));
    let far = if random.percent(50) { random.below(before) as usize } else { instructions.len() };
    if far < instructions.len() {
        instructions[far] = reads;
    } else {
        instructions.push(reads);
    }
    instructions[before as usize][1].aim = Some(far);
    instructions.push(vec![Part::new(true, STOP)]);
    Program { table, program: Draft { instructions }.bytes(), room: random.bytes(12) }
}

/// A long stretch of nops somewhere: far places, the same rule.
pub fn lengthen(random: &mut Random, draft: &mut Draft) {
    let at = random.index(draft.instructions.len());
    for _ in 0..random.between(300, 3000) {
        if draft.syllables() < 4096 {
            draft.insert(at, vec![Part::new(true, NOP)]);
        }
    }
}
