//! The plain machine: every result lands before the next instruction.

use crate::answer::Answer;
use crate::effects::{effects, write_stores};
use crate::program::Program;
use crate::run::{PAUSED, STOPPED};
use crate::state::{index, REGISTERS};
use crate::table::Table;

pub struct Plain {
    pub place: u32,
    /// Values only, in the order of the state's cells.
    pub values: [u32; REGISTERS],
    pub link: u32,
    pub memory: Vec<u8>,
}

impl Plain {
    pub fn run(&mut self, table: &Table, program: &Program, n: u32) -> Answer {
        let mut count = 0;
        let number = loop {
            if count == n {
                break PAUSED;
            }
            let instruction = program.starting_at(self.place).expect("a valid place");
            if instruction.is_stop() {
                break STOPPED;
            }
            let read = |register| self.values[index(register)];
            match effects(table, program, instruction, &read, self.link, &self.memory) {
                Err(fault) => break fault.number,
                Ok(effects) => {
                    for outcome in &effects.outcomes {
                        self.values[index(outcome.register)] = outcome.value;
                    }
                    write_stores(&effects.stores, &mut self.memory);
                    self.link = effects.link;
                    self.place = effects.next;
                    count += 1;
                }
            }
        };
        Answer { number, count, place: self.place }
    }
}

#[cfg(test)]
mod tests {
    use super::*;
    use crate::load::{load, Lengths};

    #[test]
    fn a_load_with_delay_3_is_there_for_the_next_instruction() {
        // ldbu to register 1 from address 3, then register 2 gets register 1 plus 1.
        let words: [u32; 3] = [0xF804_0003, 0xC108_1801, 0xC004_0000];
        let program: Vec<u8> = words.iter().flat_map(|word| word.to_be_bytes()).collect();
        let one = [1, 4, 4, 2, 1, 0, 1, 2, 2, 3, 1];
        let (table, program) = load(&one, &program, Lengths::of_load(12)).unwrap();
        let mut plain = Plain { place: 0, values: [0; REGISTERS], link: 9, memory: vec![0, 0, 0, 0x80] };
        assert_eq!(plain.run(&table, &program, 9), Answer { number: 255, count: 2, place: 2 });
        assert_eq!((plain.values[1], plain.values[2], plain.link), (0x80, 0x81, 9));
    }

    #[test]
    fn a_call_and_its_return() {
        // A call of 2, a stop, and at 2 a return; by the return's second run the link is the same.
        let words: [u32; 3] = [0xC008_0002, 0xC004_0000, 0xC00C_0000];
        let program: Vec<u8> = words.iter().flat_map(|word| word.to_be_bytes()).collect();
        let one = [1, 4, 4, 2, 1, 0, 1, 2, 2, 3, 1];
        let (table, program) = load(&one, &program, Lengths::of_load(12)).unwrap();
        let mut plain = Plain { place: 0, values: [0; REGISTERS], link: 7, memory: vec![] };
        assert_eq!(plain.run(&table, &program, 1), Answer { number: 0, count: 1, place: 2 });
        assert_eq!(plain.link, 1);
        assert_eq!(plain.run(&table, &program, 9), Answer { number: 255, count: 1, place: 1 });
        assert_eq!(plain.link, 1);
        (plain.place, plain.link) = (2, 3);
        assert_eq!(plain.run(&table, &program, 9), Answer { number: 17, count: 0, place: 2 });
        assert_eq!(plain.link, 3);
    }
}
