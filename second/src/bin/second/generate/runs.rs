//! Calls of run: every opcode executed, every number by every cause.

use super::accesses;
use super::breaks::{of_table, Case};
use super::build::{self, Style};
use super::draft::Draft;
use super::random::Random;
use super::{checks, loads, schedule, states};
use crate::requests::Run;
use second::load::{load, Lengths, IMAGE_SIZE};
use second::program::{Instruction, Program};
use second::run::{run_state, PAUSED};
use second::state::{index, State};
use second::syllable::Register;
use second::table::Table;

/// A program that has not ended by then is taken for one that never ends.
const PATIENCE: u32 = 2000;

#[derive(Clone, Copy)]
enum Aim {
    Ordinary,
    Accesses,
    Busy,
    Links,
    Damage,
    Sizes,
    Refused,
}

const AIMS: [(u32, Aim); 7] = [
    (46, Aim::Ordinary),
    (18, Aim::Accesses),
    (14, Aim::Busy),
    (12, Aim::Links),
    (11, Aim::Damage),
    (8, Aim::Sizes),
    (5, Aim::Refused),
];

/// So many programs of a hundred have subroutines.
pub const SUBROUTINES: u32 = 30;

pub fn call(random: &mut Random) -> Run {
    match random.weighted(&AIMS) {
        Aim::Ordinary => ordinary(random, SUBROUTINES),
        Aim::Accesses => planned(random),
        Aim::Busy => {
            let mut call = ordinary(random, SUBROUTINES);
            busy(random, &mut call);
            call
        }
        Aim::Links => {
            let mut call = ordinary(random, 100);
            linked(random, &mut call);
            call
        }
        Aim::Damage => {
            let mut call = ordinary(random, SUBROUTINES);
            damage(random, &mut call);
            call
        }
        Aim::Sizes => {
            let mut call = ordinary(random, SUBROUTINES);
            sizes(random, &mut call);
            call
        }
        Aim::Refused => refused(random),
    }
}

/// A program with a valid state and memory, all of which run takes.
fn ordinary(random: &mut Random, subroutines: u32) -> Run {
    let memory = memory_length(random);
    let table = checks::table(random);
    let mut draft = program(random, &table, memory, subroutines);
    // Without repair most runs would end early with 11.
    if random.percent(70) {
        schedule::repair(&table, &mut draft, 300);
    }
    if random.percent(1) {
        checks::lengthen(random, &mut draft);
    }
    let mut state = states::quiet(random, &draft.places(), memory);
    state.link = states::link(random, &draft.places(), draft.syllables() as u32);
    if random.percent(20) {
        states::send(random, &mut state);
    }
    finished(random, table, &draft, state, memory)
}

pub fn program(random: &mut Random, table: &[u8], memory: usize, subroutines: u32) -> Draft {
    let parsed = second::table::read(table).expect("a good table");
    let style = Style {
        registers: random.pick(&[6, 12, 24, 56]),
        branches: random.pick(&[2, 8]),
        crowd: random.pick(&[1, 2, 4, 8]),
        memory: Some(memory),
        gotos: random.pick(&[2, 5, 10]),
        branchings: random.pick(&[5, 15, 30]),
        calls: random.pick(&[0, 0, 6]),
        stops: random.pick(&[0, 0, 4]),
        returns: random.pick(&[0, 0, 4]),
        subroutines,
    };
    let most = random.pick(&[3, 8, 16, 30]);
    let count = random.between(2, most) as usize;
    build::program(random, &parsed, &style, count)
}

fn planned(random: &mut Random) -> Run {
    let memory = if random.percent(10) { 0 } else { memory_length(random).min(4096) };
    let planned = accesses::planned(random, memory);
    finished(random, planned.table, &planned.draft, planned.state, memory)
}

pub fn memory_length(random: &mut Random) -> usize {
    match random.below(100) {
        0..=4 => 0,
        5..=19 => random.between(1, 16) as usize,
        20..=79 => random.between(17, 256) as usize,
        80..=97 => random.between(257, 4096) as usize,
        98 => random.between(4097, 65_535) as usize,
        _ => 65_536,
    }
}

/// Adds memory, landing bytes, n and the room; now and then starts amid the run.
fn finished(random: &mut Random, table: Vec<u8>, draft: &Draft, mut state: State, memory: usize) -> Run {
    let program = draft.bytes();
    let mut memory = random.bytes(memory);
    let (parsed, loaded) = load(&table, &program, Lengths::of_load(12)).expect("a program that loads");
    if random.percent(30) {
        let landing = landing(random);
        let steps = random.between(1, 8);
        run_state(&parsed, &loaded, &mut state, &mut memory, &landing, steps);
    }
    let landing = landing(random);
    let n = number_of_instructions(random, &parsed, &loaded, &state, &memory, &landing);
    Run { table, program, state: state.image(), memory, landing, n, room: random.bytes(12) }
}

pub fn landing(random: &mut Random) -> Vec<u8> {
    let length = match random.below(100) {
        0..=19 => 0,
        20..=29 => 1,
        30..=54 => random.between(2, 8),
        55..=97 => random.between(9, 300),
        98 => random.between(300, 3000),
        _ => 8192,
    };
    random.bytes(length as usize)
}

/// 0, 1, 2, some, just about the run's end, or large; large only if the run ends.
pub fn number_of_instructions(
    random: &mut Random,
    table: &Table,
    program: &Program,
    state: &State,
    memory: &[u8],
    landing: &[u8],
) -> u32 {
    let end = run_state(table, program, &mut state.clone(), &mut memory.to_vec(), landing, PATIENCE);
    let large = random.pick(&[PATIENCE, 0x7FFF_FFFF, 0x8000_0000, 0xFFFF_FFFF]);
    match random.below(20) {
        0 => 0,
        1 | 2 => 1,
        3 => 2,
        4..=8 => random.between(3, 40),
        _ if end.number == PAUSED => random.between(1, PATIENCE),
        9..=11 => end.count,
        12 => end.count + 1,
        _ => large,
    }
}

/// One register that an instruction names is busy, or every register that it does not name.
fn busy(random: &mut Random, call: &mut Run) {
    let (_, program) = load(&call.table, &call.program, Lengths::of_load(12)).expect("a program that loads");
    let mut state = State::from_image(&call.state);
    state.land_everything();
    if random.percent(75) {
        // Not every program has the opcodes asked for.
        let found = (0..8).map(|_| named_registers(random, &program)).find(|named| !named.is_empty());
        if let Some(named) = found {
            let (place, register) = random.pick(&named);
            state.place = place;
            state.cell_mut(register).busy = random.between(1, 7) as u8;
        }
    } else {
        let instruction = &program.instructions[random.index(program.instructions.len())];
        state.place = instruction.place;
        let named: Vec<usize> = instruction.reads().into_iter().chain(instruction.destinations()).map(index).collect();
        for (index, cell) in state.cells.iter_mut().enumerate() {
            if !named.contains(&index) && (index >= 256 || index % 64 != 0) {
                cell.busy = 7;
            }
        }
    }
    call.state = state.image();
    call.n = random.pick(&[1, 1, 2, 10]);
}

/// Registers with the places of instructions that name them, not every one; at times only those of the rarer opcodes.
fn named_registers(random: &mut Random, program: &Program) -> Vec<(u32, Register)> {
    let opcodes: &[u32] = random.pick(&[&[23], &[23], &[23], &[50, 51], &[57, 58, 59], &[60], &[62, 63], &[]]);
    let mut named = Vec::new();
    for instruction in program.instructions.iter().filter(|instruction| !reads_everything(instruction)) {
        for placed in &instruction.syllables {
            let syllable = placed.syllable;
            if opcodes.is_empty() || opcodes.contains(&syllable.opcode()) {
                let registers = [syllable.reads(placed.cluster), syllable.destinations(placed.cluster)].concat();
                named.extend(registers.into_iter().map(|register| (instruction.place, register)));
            }
        }
    }
    named.retain(|(_, register)| !register.is_register_0());
    named
}

fn reads_everything(instruction: &Instruction) -> bool {
    instruction.has_call() || instruction.is_return()
}

/// A start at a call or a return with a link of any kind; at times one register is busy, any of all.
fn linked(random: &mut Random, call: &mut Run) {
    let (_, program) = load(&call.table, &call.program, Lengths::of_load(12)).expect("a program that loads");
    let starts: Vec<u32> = program.instructions.iter().map(|instruction| instruction.place).collect();
    let mut state = State::from_image(&call.state);
    state.land_everything();
    let calls: Vec<u32> = places(&program, |instruction| instruction.has_call());
    let returns: Vec<u32> = places(&program, |instruction| instruction.is_return());
    let from = if calls.is_empty() || random.percent(65) { returns } else { calls };
    if !from.is_empty() {
        state.place = random.pick(&from);
    }
    state.link = states::link(random, &starts, program.end());
    if random.percent(45) {
        state.cells[states::any_register(random)].busy = random.between(1, 7) as u8;
    }
    call.state = state.image();
    call.n = random.pick(&[0, 1, 1, 2, 3, 10, 40]);
}

fn places(program: &Program, which: fn(&Instruction) -> bool) -> Vec<u32> {
    program.instructions.iter().filter(|instruction| which(instruction)).map(|instruction| instruction.place).collect()
}

fn damage(random: &mut Random, call: &mut Run) {
    let (_, program) = load(&call.table, &call.program, Lengths::of_load(12)).expect("a program that loads");
    let starts: Vec<u32> = program.instructions.iter().map(|instruction| instruction.place).collect();
    let mut state = State::from_image(&call.state);
    for _ in 0..random.pick(&[1, 1, 1, 2]) {
        random.pick(&states::DAMAGES)(random, &mut state, &starts);
    }
    call.state = state.image();
    // A damaged state may still run; then it must not run long.
    call.n = call.n.min(PATIENCE);
}

/// Some of refusal 2's four cases together, at times with refusals that come before or after.
fn sizes(random: &mut Random, call: &mut Run) {
    let which = random.between(1, 15);
    if which & 1 != 0 {
        match random.below(4) {
            0 => call.program.clear(),
            1 => {
                call.program.pop();
            }
            2 => call.program.push(0x80),
            _ => call.program = 0xC004_0000u32.to_be_bytes().repeat(4097),
        }
    }
    if which & 2 != 0 {
        let length = random.pick(&[65_537, 65_537, 65_540, 65_600]);
        call.memory.resize(length, 0xA5);
    }
    if which & 4 != 0 {
        // Four bytes less: an image without the link register.
        let near = [IMAGE_SIZE - 10, IMAGE_SIZE - 4, IMAGE_SIZE - 1, IMAGE_SIZE + 1, IMAGE_SIZE + 4, IMAGE_SIZE + 10];
        let length = if random.percent(20) { random.pick(&[0, 4, 4096]) } else { random.pick(&near) };
        call.state.resize(length, 0);
    }
    if which & 8 != 0 {
        let length = random.pick(&[0, 4, 11, 13, 24]);
        call.room = random.bytes(length);
    }
    if random.percent(15) {
        let mut case = Case { table: call.table.clone(), draft: Draft::default() };
        random.pick(&of_table::BREAKS)(random, &mut case);
        call.table = case.table;
    }
    if random.percent(15) && call.program.len() > 4 {
        let last = call.program.len() / 4 * 4 - 4;
        call.program[last] &= 0x7F;
    }
    if random.percent(15) && call.state.len() > 4 {
        call.state[0] = 0xFF;
    }
}

/// A table and program as for load, refused mostly, with a state that may be bad too.
fn refused(random: &mut Random) -> Run {
    let call = loads::call(random);
    let length = memory_length(random);
    let mut state = states::quiet(random, &[0], length);
    state.link = random.word() >> random.below(32);
    if random.percent(30) {
        random.pick(&states::DAMAGES)(random, &mut state, &[0]);
    }
    Run {
        table: call.table,
        program: call.program,
        state: state.image(),
        memory: random.bytes(length),
        landing: landing(random),
        n: random.below(100),
        room: call.room,
    }
}
