//! Refusals 1 to 8. Each number is tested over the whole input before the next, lowest place first.

use crate::answer::Refusal;
use crate::program::{Instruction, Program};
use crate::syllable::{Class, Syllable};
use crate::table::{self, Table};
use std::cmp::Ordering;

pub const MOST_SYLLABLES: usize = 4096;
pub const MOST_MEMORY: usize = 65_536;
pub const IMAGE_SIZE: usize = 2888;
pub const ROOM_SIZE: usize = 12;

/// The lengths refusal 2 looks at; load and check take no memory and no state image.
pub struct Lengths {
    pub memory: Option<usize>,
    pub image: Option<usize>,
    pub room: usize,
}

impl Lengths {
    pub fn of_load(room: usize) -> Lengths {
        Lengths { memory: None, image: None, room }
    }
}

pub fn load(table: &[u8], program: &[u8], lengths: Lengths) -> Result<(Table, Program), Refusal> {
    let table = table::read(table)?;
    number_2(program.len(), lengths)?;
    let syllables = syllables(program);
    number_3(&syllables)?;
    lowest(number_4(&syllables))?;
    let program = Program::split(&syllables);
    for number in 5..=8 {
        lowest(breaks(number, &table, &program))?;
    }
    Ok((table, program))
}

pub fn syllables(program: &[u8]) -> Vec<Syllable> {
    let word = |bytes: &[u8]| u32::from_be_bytes([bytes[0], bytes[1], bytes[2], bytes[3]]);
    program.chunks_exact(4).map(|bytes| Syllable(word(bytes))).collect()
}

/// Lowest place first.
fn lowest(breaks: Vec<Refusal>) -> Result<(), Refusal> {
    breaks.into_iter().min_by_key(|refusal| refusal.place).map_or(Ok(()), Err)
}

/// All breaks of a number from 5 to 8, whatever the others say.
pub fn breaks(number: u32, table: &Table, program: &Program) -> Vec<Refusal> {
    match number {
        5 => number_5(table, program),
        6 => number_6(table, program),
        7 => number_7(program),
        8 => number_8(program),
        _ => panic!("a number from 5 to 8"),
    }
}

pub fn number_2(program: usize, lengths: Lengths) -> Result<(), Refusal> {
    let good_program = program % 4 == 0 && (1..=MOST_SYLLABLES).contains(&(program / 4));
    if !good_program {
        return Err(Refusal::new(2, 0, "program size"));
    }
    if lengths.memory.is_some_and(|length| length > MOST_MEMORY) {
        return Err(Refusal::new(2, 1, "memory size"));
    }
    if lengths.image.is_some_and(|length| length != IMAGE_SIZE) {
        return Err(Refusal::new(2, 2, "state image size"));
    }
    if lengths.room != ROOM_SIZE {
        return Err(Refusal::new(2, 3, "room size"));
    }
    Ok(())
}

pub fn number_3(syllables: &[Syllable]) -> Result<(), Refusal> {
    let last = syllables.len() - 1;
    if !syllables[last].ends_instruction() {
        return Err(Refusal::new(3, last as u32, "last syllable lacks bit 31"));
    }
    Ok(())
}

pub fn number_4(syllables: &[Syllable]) -> Vec<Refusal> {
    let stray =
        |(place, syllable): (usize, &Syllable)| syllable.stray_bits().map(|cause| Refusal::new(4, place as u32, cause));
    syllables.iter().enumerate().filter_map(stray).collect()
}

fn number_5(table: &Table, program: &Program) -> Vec<Refusal> {
    let c = table.clusters.len() as u32;
    let mut breaks = Vec::new();
    for instruction in &program.instructions {
        if !instruction.syllables[0].syllable.starts_cluster() {
            breaks.push(Refusal::new(5, instruction.place, "bit 30 missing"));
        }
        for placed in &instruction.syllables {
            let syllable = placed.syllable;
            let mut refused = |cause| breaks.push(Refusal::new(5, placed.place, cause));
            if placed.cluster >= c {
                refused("more clusters than C");
            }
            if syllable.class() == Class::Control && placed.cluster != 0 {
                refused("control outside cluster 0");
            }
            if syllable.class() == Class::Copy && syllable.copy_source() == placed.cluster {
                refused("copy from its own cluster");
            }
            if syllable.class() == Class::Copy && syllable.copy_source() >= c {
                refused("copy from a cluster not below C");
            }
        }
    }
    breaks
}

fn number_6(table: &Table, program: &Program) -> Vec<Refusal> {
    let mut breaks = Vec::new();
    for instruction in &program.instructions {
        let mut refused = |cause| breaks.push(Refusal::new(6, instruction.place, cause));
        for (cluster, limits) in table.clusters.iter().enumerate() {
            let counts = instruction.counts(cluster as u32);
            if counts.syllables > limits.width {
                refused("width");
            }
            if counts.alu > limits.alu {
                refused("ALU");
            }
            if counts.mul > limits.mul {
                refused("MUL");
            }
            if counts.mem > limits.mem {
                refused("MEM");
            }
            // A copy counts for COPY in the cluster it goes to and in the one it comes from.
            if counts.copies_in + counts.copies_out > limits.copy {
                refused(match (counts.copies_in > limits.copy, counts.copies_out > limits.copy) {
                    (true, _) => "COPY to it",
                    (false, true) => "COPY from it",
                    (false, false) => "COPY to and from it",
                });
            }
        }
        let controls = instruction.syllables.iter().filter(|placed| placed.syllable.class() == Class::Control).count();
        if controls > 1 {
            refused("two control syllables");
        }
    }
    breaks
}

fn number_7(program: &Program) -> Vec<Refusal> {
    let mut breaks = Vec::new();
    for instruction in &program.instructions {
        let destinations = instruction.destinations();
        for (index, destination) in destinations.iter().enumerate() {
            if destinations[..index].contains(destination) {
                breaks.push(Refusal::new(7, instruction.place, "double destination"));
            }
        }
    }
    breaks
}

fn number_8(program: &Program) -> Vec<Refusal> {
    let mut breaks = Vec::new();
    let last = program.instructions.len() - 1;
    for (index, instruction) in program.instructions.iter().enumerate() {
        if index == last && !instruction.has_goto() && !instruction.is_stop() && !instruction.is_return() {
            breaks.push(Refusal::new(8, instruction.place, last_cause(instruction)));
        }
        for placed in &instruction.syllables {
            if let Some(target) = placed.syllable.target() {
                if program.starting_at(target).is_none() {
                    let cause = match target.cmp(&program.end()) {
                        Ordering::Less => "target inside an instruction",
                        Ordering::Equal => "target at the program's end",
                        Ordering::Greater => "target beyond the program",
                    };
                    breaks.push(Refusal::new(8, placed.place, cause));
                }
            }
            if placed.syllable.is_stop() && instruction.syllables.len() > 1 {
                breaks.push(Refusal::new(8, placed.place, "stop has company"));
            }
            if placed.syllable.is_return() && instruction.syllables.len() > 1 {
                breaks.push(Refusal::new(8, placed.place, "return has company"));
            }
        }
    }
    breaks
}

fn last_cause(instruction: &Instruction) -> &'static str {
    match instruction.target() {
        // A return may come back to what follows the call.
        Some(_) if instruction.has_call() => "last instruction a call",
        Some(_) => "last instruction a branch",
        None => "last instruction plain",
    }
}

#[cfg(test)]
mod tests {
    use super::*;

    // Two clusters, width 2, one of each class, all delays 1.
    const TWO: [u8; 16] = [2, 2, 1, 1, 1, 1, 2, 1, 1, 1, 1, 1, 1, 1, 1, 1];

    const STOP: u32 = 0xC004_0000;
    const END: u32 = 1 << 31;
    const OPEN: u32 = 1 << 30;
    const NOP: u32 = 0;
    const GOTO: u32 = 61 << 24;
    const BR: u32 = 62 << 24;
    const CALL: u32 = 2 << 18;
    const RETURN: u32 = 3 << 18;

    fn add(t: u32, s1: u32, s2: u32) -> u32 {
        1 << 24 | t << 18 | s1 << 12 | s2
    }

    fn copy(t: u32, s1: u32, from: u32) -> u32 {
        60 << 24 | t << 18 | s1 << 12 | from
    }

    fn given_with(table: &[u8], words: &[u32]) -> (u32, u32) {
        let bytes: Vec<u8> = words.iter().flat_map(|word| word.to_be_bytes()).collect();
        match load(table, &bytes, Lengths::of_load(12)) {
            Ok(_) => (0, 0),
            Err(refusal) => (refusal.number, refusal.place),
        }
    }

    fn given(words: &[u32]) -> (u32, u32) {
        given_with(&TWO, words)
    }

    #[test]
    fn good_programs() {
        assert_eq!(given(&[STOP]), (0, 0));
        assert_eq!(given(&[END | OPEN | GOTO]), (0, 0));
        assert_eq!(given(&[OPEN | add(1, 2, 3), END | OPEN | add(1, 2, 3), STOP]), (0, 0));
        assert_eq!(given(&[END | OPEN | RETURN]), (0, 0));
        // A call of the return at place 2, with company on both sides and in cluster 1.
        assert_eq!(given(&[END | OPEN | CALL | 2, STOP, END | OPEN | RETURN]), (0, 0));
        let crowd = [OPEN | add(1, 2, 3), CALL | 4, END | OPEN | add(1, 2, 3), STOP, END | OPEN | RETURN];
        assert_eq!(given(&crowd), (0, 0));
    }

    #[test]
    fn number_2_in_its_order() {
        let sized = |program: usize, memory, image, room| {
            let lengths = Lengths { memory: Some(memory), image: Some(image), room };
            load(&TWO, &STOP.to_be_bytes().repeat(2000)[..program], lengths).err().map(|r| (r.number, r.place))
        };
        assert_eq!(sized(4, 65_536, 2888, 12), None);
        assert_eq!(sized(0, 65_537, 2887, 11), Some((2, 0)));
        assert_eq!(sized(5, 0, 2888, 12), Some((2, 0)));
        assert_eq!(sized(4, 65_537, 2887, 11), Some((2, 1)));
        assert_eq!(sized(4, 65_536, 2888, 13), Some((2, 3)));
        // 2,884 bytes are an image without the link register.
        for image in [0, 4, 2884, 2887, 2889, 2892] {
            assert_eq!(sized(4, 65_536, image, 11), Some((2, 2)));
        }
    }

    #[test]
    fn most_syllables() {
        assert_eq!(given(&[STOP; 4096]), (0, 0));
        assert_eq!(given(&[STOP; 4097]), (2, 0));
    }

    #[test]
    fn number_3_and_4() {
        assert_eq!(given(&[STOP, OPEN | NOP]), (3, 1));
        // A lower place under 4 does not come before 3.
        assert_eq!(given(&[STOP | 1, OPEN | NOP]), (3, 1));
        assert_eq!(given(&[STOP, STOP | 1]), (4, 1));
        assert_eq!(given(&[END | OPEN | 4 << 18, STOP]), (4, 0));
        assert_eq!(given(&[END | OPEN | 63 << 18, STOP]), (4, 0));
        for bit in [0, 11, 17] {
            assert_eq!(given(&[STOP, END | OPEN | RETURN | 1 << bit]), (4, 1));
        }
    }

    #[test]
    fn number_5() {
        assert_eq!(given(&[END | NOP, STOP]), (5, 0));
        let three = [OPEN | NOP, OPEN | NOP, END | OPEN | NOP, STOP];
        assert_eq!(given(&three), (5, 2));
        assert_eq!(given(&[OPEN | NOP, END | OPEN | GOTO]), (5, 1));
        assert_eq!(given(&[OPEN | NOP, END | OPEN | CALL, STOP]), (5, 1));
        assert_eq!(given(&[OPEN | NOP, END | OPEN | RETURN]), (5, 1));
        assert_eq!(given(&[END | OPEN | copy(1, 1, 0), STOP]), (5, 0));
        assert_eq!(given(&[END | OPEN | copy(1, 1, 2), STOP]), (5, 0));
        assert_eq!(given(&[END | OPEN | copy(1, 1, 1), STOP]), (0, 0));
    }

    #[test]
    fn number_6() {
        assert_eq!(given(&[STOP, OPEN | NOP, NOP, END | NOP, STOP]), (6, 1));
        assert_eq!(given(&[OPEN | add(1, 2, 3), END | add(2, 2, 3), STOP]), (6, 0));
        // One copy each way counts twice in both clusters.
        assert_eq!(given(&[OPEN | copy(1, 1, 1), END | OPEN | copy(1, 1, 0), STOP]), (6, 0));
        assert_eq!(given(&[OPEN | GOTO, END | GOTO]), (6, 0));
        // Two stops are two control syllables before they are company.
        assert_eq!(given(&[OPEN | 1 << 18, END | 1 << 18]), (6, 0));
        // So are call and return beside any other and beside each other.
        for other in [1 << 18, CALL, RETURN, GOTO, BR] {
            assert_eq!(given(&[STOP, OPEN | CALL, END | other, STOP]), (6, 1));
            assert_eq!(given(&[STOP, OPEN | other, END | RETURN]), (6, 1));
        }
    }

    #[test]
    fn number_7() {
        let wide = [1, 8, 8, 4, 4, 0, 1, 1, 1, 1, 1];
        assert_eq!(given_with(&wide, &[STOP, OPEN | add(1, 2, 3), END | add(1, 2, 3), STOP]), (7, 1));
        assert_eq!(given_with(&wide, &[OPEN | add(0, 2, 3), END | add(0, 2, 3), STOP]), (0, 0));
        // Branch register 0 is ordinary.
        let compare = 40 << 24;
        assert_eq!(given_with(&wide, &[OPEN | compare, END | compare, STOP]), (7, 0));
        assert_eq!(given_with(&wide, &[OPEN | compare, END | 23 << 24, STOP]), (7, 0));
        assert_eq!(given_with(&wide, &[OPEN | compare, END | 23 << 24 | 1 << 6, STOP]), (0, 0));
    }

    #[test]
    fn number_8() {
        let two = OPEN | NOP;
        assert_eq!(given(&[two, END | GOTO | 1]), (8, 1));
        assert_eq!(given(&[two, END | GOTO | 2]), (8, 1));
        assert_eq!(given(&[two, END | GOTO]), (0, 0));
        assert_eq!(given(&[OPEN | NOP, END | 1 << 18]), (8, 1));
        assert_eq!(given(&[STOP, END | OPEN | NOP]), (8, 1));
        // The last instruction's first syllable lies before its bad target.
        assert_eq!(given(&[STOP, OPEN | NOP, END | BR | 9]), (8, 1));
    }

    #[test]
    fn number_8_of_call_and_return() {
        // Targets at the place after the last, far beyond and inside the second instruction.
        for target in [4, 0x3_FFFF, 2] {
            assert_eq!(given(&[END | OPEN | CALL | target, OPEN | NOP, END | NOP, STOP]), (8, 0));
        }
        assert_eq!(given(&[END | OPEN | CALL | 1, OPEN | NOP, END | NOP, STOP]), (0, 0));
        // The call, not its instruction's first syllable, is named.
        assert_eq!(given(&[OPEN | NOP, END | CALL | 9, STOP]), (8, 1));
        // A return has no company, a nop neither, and is itself the place.
        assert_eq!(given(&[STOP, OPEN | NOP, END | RETURN]), (8, 2));
        assert_eq!(given(&[STOP, OPEN | RETURN, END | NOP]), (8, 1));
        assert_eq!(given(&[STOP, OPEN | RETURN, END | OPEN | NOP]), (8, 1));
        assert_eq!(given(&[OPEN | add(1, 2, 3), END | RETURN, STOP]), (8, 1));
        // A call is not enough for the last instruction, wherever it leads.
        assert_eq!(given(&[STOP, END | OPEN | CALL]), (8, 1));
        assert_eq!(given(&[STOP, OPEN | NOP, END | CALL]), (8, 1));
        assert_eq!(given(&[STOP, OPEN | NOP, END | CALL | 9]), (8, 1));
    }

    #[test]
    fn the_swap_loads() {
        let table = [1, 4, 4, 2, 1, 0, 1, 2, 2, 3, 1];
        assert_eq!(given_with(&table, &[0x410C_4800, 0x8110_3800, STOP]), (0, 0));
    }
}
