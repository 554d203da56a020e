//! Every opcode alone, and call and return: every single bit for load, every single register for check and run.

use super::draft::{Draft, Part, CALL, NOP, RETURN, STOP};
use crate::requests::{Program, Run};
use second::state::State;
use second::syllable::Register;

/// Four clusters with room for everything, all delays 2.
const TABLE: [u8; 26] = [4, 8, 8, 4, 4, 4, 8, 8, 4, 4, 4, 8, 8, 4, 4, 4, 8, 8, 4, 4, 4, 2, 2, 2, 2, 2];

/// The same with one cluster: the registers of the others count all the same for call and return.
const NARROW: [u8; 11] = [1, 8, 8, 4, 4, 4, 2, 2, 2, 2, 2];

/// No bit or one of bits 23..0, with bit 11 clear or set, for each opcode.
const BIT_PATTERNS: u64 = 2 * 25;

/// General registers 1 to 7 and branch registers of clusters 0 and 1.
const REGISTERS: u64 = 2 * (7 + 8);

/// Every register but register 0, for call and return.
const ALL_REGISTERS: u64 = 4 * (63 + 8);

const OF_OPCODES: u64 = 64 * 2 * REGISTERS;

pub const LOADS: u64 = (64 + 2) * BIT_PATTERNS;
pub const CHECKS: u64 = OF_OPCODES + 2 * ALL_REGISTERS;
pub const RUNS: u64 = CHECKS;

/// One syllable with one of its bits set, then a stop.
pub fn load(index: u64) -> Program {
    let (operation, pattern) = ((index / BIT_PATTERNS) as u32, (index % BIT_PATTERNS) as u32);
    let bit = pattern / 2;
    let bits = (pattern % 2) << 11 | if bit == 24 { 0 } else { 1 << bit };
    let word = match operation {
        64 => CALL,
        65 => RETURN,
        opcode => opcode << 24,
    };
    let instructions = vec![vec![Part::new(true, word | bits)], stop()];
    Program { table: TABLE.to_vec(), program: Draft { instructions }.bytes(), room: vec![0xEE; 12] }
}

/// A producer of one register, one syllable, then a stop: refused if the syllable names the register.
pub fn check(index: u64) -> Program {
    let (word, register) = named(index);
    let (cluster, producer) = match register {
        Register::General { cluster, number } => (cluster, 24 << 24 | number << 18 | 1 << 11),
        Register::Branch { cluster, number } => (cluster, 40 << 24 | number << 18 | 1 << 11),
    };
    let mut first: Vec<Part> = (0..cluster).map(|_| Part::new(true, NOP)).collect();
    first.push(Part::new(true, producer));
    let instructions = vec![first, vec![aimed(word, 2)], stop()];
    Program { table: TABLE.to_vec(), program: Draft { instructions }.bytes(), room: vec![0xEE; 12] }
}

/// One syllable, then a stop, with one register busy: fault 11 if the syllable names it.
pub fn run(index: u64) -> Run {
    let (word, register) = named(index);
    let reads_everything = index >= OF_OPCODES;
    let instructions = vec![vec![aimed(word, 1)], stop()];
    let mut state = State::zero();
    state.cell_mut(Register::General { cluster: 0, number: 2 }).value = 4;
    state.cell_mut(register).busy = 1;
    if reads_everything {
        // Would be 17 if it were not 11.
        state.link = u32::MAX;
    }
    Run {
        table: if reads_everything { NARROW.to_vec() } else { TABLE.to_vec() },
        program: Draft { instructions }.bytes(),
        state: state.image(),
        memory: (1..=16).collect(),
        landing: vec![],
        n: 1,
        room: vec![0xEE; 12],
    }
}

fn stop() -> Vec<Part> {
    vec![Part::new(true, STOP)]
}

fn aimed(word: u32, next: usize) -> Part {
    let part = Part::new(true, word);
    Part { aim: part.has_target().then_some(next), ..part }
}

/// The syllable and the register of an index.
fn named(index: u64) -> (u32, Register) {
    if index >= OF_OPCODES {
        let is_register_0 = |register: &Register| matches!(register, Register::General { number: 0, .. });
        let all: Vec<Register> = Register::ALL.into_iter().filter(|register| !is_register_0(register)).collect();
        let (which, register) = ((index - OF_OPCODES) / ALL_REGISTERS, (index - OF_OPCODES) % ALL_REGISTERS);
        return ([CALL, RETURN][which as usize], all[register as usize]);
    }
    let (which, register) = (index / REGISTERS, (index % REGISTERS) as u32);
    let (cluster, number) = (register / 15, register % 15);
    let register = if number < 7 {
        Register::General { cluster, number: number + 1 }
    } else {
        Register::Branch { cluster, number: number - 7 }
    };
    (word((which / 2) as u32, which % 2 == 1), register)
}

/// A syllable whose fields name different registers, with bit 11 clear or, where it may be, set.
fn word(opcode: u32, bit_11: bool) -> u32 {
    let (t, s1, s2) = (1 << 18, 2 << 12, 3);
    let high = u32::from(bit_11) << 11;
    let fields = match opcode {
        0 => {
            if bit_11 {
                STOP
            } else {
                NOP
            }
        }
        // The immediate looks like register 3, which nobody reads then.
        1..=18 | 24..=39 => t | s1 | high | s2,
        40..=49 => 3 << 18 | s1 | high | s2,
        19..=22 => t | s1,
        // b is register 1 or 5, addcg's branch destination register 2.
        23 => t | s1 | high | 1 << 9 | 2 << 6 | s2,
        50 | 51 => t | s1 | high | 1 << 9 | s2,
        52..=59 => t | s1 | high,
        60 => t | s1 | 1,
        62 | 63 => 6 << 21,
        _ => 0,
    };
    opcode << 24 | fields
}
