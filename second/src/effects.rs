//! What one instruction does. All operands and loaded bytes are read before anything is written.

use crate::program::{Instruction, Program};
use crate::syllable::{Register, Syllable};
use crate::table::Table;
use crate::values;
use std::cmp::Ordering;

/// A fault 11 to 14 or 17; its place is always the instruction's first syllable.
#[derive(Clone, Copy, Debug, PartialEq, Eq)]
pub struct Fault {
    pub number: u32,
    pub cause: &'static str,
}

/// A value on its way to a register.
pub struct Outcome {
    pub register: Register,
    pub delay: u32,
    pub value: u32,
}

/// Bytes on their way to memory.
pub struct Store {
    pub address: usize,
    pub bytes: Vec<u8>,
}

/// Everything an instruction leaves behind: its results by syllable, its stores, its next place, the link register.
pub struct Effects {
    pub outcomes: Vec<Outcome>,
    pub stores: Vec<Store>,
    pub next: u32,
    pub link: u32,
}

type Read<'a> = &'a dyn Fn(Register) -> u32;

/// Fault 17, then 12 and 13 syllable by syllable, then 14; fault 11 has been excluded before.
pub fn effects(
    table: &Table,
    program: &Program,
    instruction: &Instruction,
    read: Read,
    link: u32,
    memory: &[u8],
) -> Result<Effects, Fault> {
    let mut effects = Effects { outcomes: Vec::new(), stores: Vec::new(), next: instruction.following(), link };
    if instruction.is_return() {
        fault_17(program, link)?;
        effects.next = link;
    }
    if instruction.has_call() {
        effects.link = instruction.following();
    }
    for placed in &instruction.syllables {
        let (syllable, cluster) = (placed.syllable, placed.cluster);
        if syllable.is_load() || syllable.is_store() {
            let at = accessed(syllable, cluster, read, memory)?;
            if let Some(register) = syllable.stored(cluster) {
                let bytes = values::stored(syllable.opcode(), read(register));
                effects.stores.push(Store { address: at, bytes });
            }
        }
        for register in syllable.destinations(cluster) {
            let delay = syllable.delay(register, table);
            let value = result_value(syllable, cluster, register, read, memory);
            effects.outcomes.push(Outcome { register, delay, value });
        }
        if let Some(target) = syllable.target() {
            if is_taken(syllable, cluster, read) {
                effects.next = target;
            }
        }
    }
    if stores_share_a_byte(&effects.stores) {
        return Err(Fault { number: 14, cause: "two stores share a byte" });
    }
    Ok(effects)
}

/// The link register must name an instruction's first syllable when a return runs.
fn fault_17(program: &Program, link: u32) -> Result<(), Fault> {
    if program.starting_at(link).is_some() {
        return Ok(());
    }
    let cause = match link.cmp(&program.end()) {
        Ordering::Less => "link inside an instruction",
        Ordering::Equal => "link at the program's end",
        Ordering::Greater => "link beyond the program",
    };
    Err(Fault { number: 17, cause })
}

/// Where a load or store goes, or fault 12, or fault 13.
fn accessed(syllable: Syllable, cluster: u32, read: Read, memory: &[u8]) -> Result<usize, Fault> {
    let base = read(syllable.s1(cluster).expect("a base register"));
    let address = values::address(base, syllable.offset()) as usize;
    let size = values::access_size(syllable.opcode());
    if address % size != 0 {
        return Err(Fault { number: 12, cause: "address no multiple of the access size" });
    }
    // The sum isn't reduced: near 2^32 it lies beyond every memory.
    if address as u64 + size as u64 > memory.len() as u64 {
        return Err(Fault { number: 13, cause: "access beyond memory" });
    }
    Ok(address)
}

fn result_value(syllable: Syllable, cluster: u32, register: Register, read: Read, memory: &[u8]) -> u32 {
    let value_of = |source: Option<Register>| source.map_or(0, read);
    let s1 = value_of(syllable.s1(cluster));
    let s2 = if syllable.has_immediate() { syllable.immediate() } else { value_of(syllable.s2(cluster)) };
    let b = value_of(syllable.b(cluster));
    match (syllable.opcode(), register) {
        (23, Register::Branch { .. }) => values::carry(s1, s2, b),
        (opcode @ 52..=56, _) => {
            let at = values::address(s1, syllable.offset()) as usize;
            values::loaded(opcode, &memory[at..at + values::access_size(opcode)])
        }
        (60, _) => s1,
        (opcode, _) => values::value(opcode, s1, s2, b),
    }
}

/// goto and call always; br on 1, brf on 0.
fn is_taken(syllable: Syllable, cluster: u32, read: Read) -> bool {
    match syllable.b(cluster) {
        None => true,
        Some(b) if syllable.opcode() == 62 => read(b) == 1,
        Some(b) => read(b) == 0,
    }
}

fn stores_share_a_byte(stores: &[Store]) -> bool {
    for (index, later) in stores.iter().enumerate() {
        for earlier in &stores[..index] {
            let apart = earlier.address + earlier.bytes.len() <= later.address
                || later.address + later.bytes.len() <= earlier.address;
            if !apart {
                return true;
            }
        }
    }
    false
}

/// Puts an instruction's stores into memory.
pub fn write_stores(stores: &[Store], memory: &mut [u8]) {
    for store in stores {
        memory[store.address..store.address + store.bytes.len()].copy_from_slice(&store.bytes);
    }
}
