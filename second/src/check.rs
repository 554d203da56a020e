//! The schedule rule, searched path by path.

use crate::program::Program;
use crate::syllable::Register;
use crate::table::Table;

/// Refusal 9: the places of a producer and its consumer.
#[derive(Clone, Copy, Debug, PartialEq, Eq)]
pub struct Clash {
    pub producer: u32,
    pub consumer: u32,
}

/// The lowest producer that clashes and, for it, the lowest consumer.
pub fn check(table: &Table, program: &Program) -> Option<Clash> {
    for producer in &program.instructions {
        let mut lowest: Option<u32> = None;
        for (register, delay) in producer.results(table) {
            consumers(program, producer.place, register, delay - 1, &mut |consumer| {
                lowest = Some(lowest.map_or(consumer, |known| known.min(consumer)));
            });
        }
        if let Some(consumer) = lowest {
            return Some(Clash { producer: producer.place, consumer });
        }
    }
    None
}

/// Walks every path of 1 to `steps` nexts and hands on each instruction that reads or writes the register.
fn consumers(program: &Program, from: u32, register: Register, steps: u32, found: &mut dyn FnMut(u32)) {
    if steps == 0 {
        return;
    }
    for next in program.starting_at(from).expect("a loaded place").nexts() {
        let instruction = program.starting_at(next).expect("a loaded next");
        if instruction.reads().contains(&register) || instruction.destinations().contains(&register) {
            found(next);
        }
        consumers(program, next, register, steps - 1, found);
    }
}

#[cfg(test)]
mod tests {
    use super::*;
    use crate::load::{load, Lengths};

    const STOP: u32 = 0xC004_0000;
    const ALONE: u32 = 3 << 30;
    const NOP: u32 = ALONE;
    const GOTO: u32 = ALONE | 61 << 24;
    const BR: u32 = ALONE | 62 << 24;
    const CALL: u32 = ALONE | 2 << 18;
    const RETURN: u32 = ALONE | 3 << 18;

    fn load_word(t: u32) -> u32 {
        ALONE | 52 << 24 | t << 18
    }

    fn add(t: u32, s1: u32) -> u32 {
        ALONE | 1 << 24 | t << 18 | s1 << 12 | 1 << 11
    }

    fn multiply(t: u32, s1: u32) -> u32 {
        ALONE | 24 << 24 | t << 18 | s1 << 12 | 1 << 11
    }

    fn compare(b: u32) -> u32 {
        ALONE | 40 << 24 | b << 18 | 1 << 11
    }

    /// Delays ALU 1, CMPB 2, MUL 2, LOAD 3, COPY 1.
    fn clash(words: &[u32]) -> Option<(u32, u32)> {
        clash_with(3, words)
    }

    fn clash_with(load_delay: u8, words: &[u32]) -> Option<(u32, u32)> {
        let bytes: Vec<u8> = words.iter().flat_map(|word| word.to_be_bytes()).collect();
        let one = [1, 4, 4, 2, 1, 0, 1, 2, 2, load_delay, 1];
        let (table, program) = load(&one, &bytes, Lengths::of_load(12)).unwrap();
        check(&table, &program).map(|clash| (clash.producer, clash.consumer))
    }

    #[test]
    fn with_load_3_a_reader_two_on_is_9_three_on_is_not() {
        assert_eq!(clash(&[load_word(1), add(2, 1), STOP]), Some((0, 1)));
        assert_eq!(clash(&[load_word(1), NOP, add(2, 1), STOP]), Some((0, 2)));
        assert_eq!(clash(&[load_word(1), NOP, NOP, add(2, 1), STOP]), None);
    }

    #[test]
    fn a_writer_counts_like_a_reader() {
        assert_eq!(clash(&[load_word(1), NOP, add(1, 5), STOP]), Some((0, 2)));
    }

    #[test]
    fn register_0_is_never_in_flight_but_branch_register_0_is() {
        assert_eq!(clash(&[load_word(0), add(1, 0), STOP]), None);
        assert_eq!(clash(&[compare(0), BR, STOP]), Some((0, 1)));
    }

    #[test]
    fn a_loop_to_itself_is_its_own_consumer() {
        let words = [1 << 30 | 24 << 24 | 1 << 18 | 1 << 11, 1 << 31 | 61 << 24];
        assert_eq!(clash(&words), Some((0, 0)));
    }

    #[test]
    fn both_ways_of_a_branch_and_consumers_below() {
        let (multiply_and, br_to) = (multiply(1, 2) & !(1 << 31), 1 << 31 | 62 << 24);
        // The way back to 0 reads register 1 one step after its producer.
        assert_eq!(clash(&[add(2, 1), BR | 3, GOTO | 5, multiply_and, br_to, STOP]), Some((3, 0)));
        assert_eq!(clash(&[multiply_and, br_to | 3, STOP, add(1, 1), STOP]), Some((0, 3)));
        assert_eq!(clash(&[multiply_and, br_to | 4, add(1, 1), STOP, STOP]), Some((0, 2)));
    }

    #[test]
    fn a_producer_that_cannot_be_reached_counts() {
        assert_eq!(clash(&[GOTO | 3, multiply(1, 2), add(3, 1), STOP]), Some((1, 2)));
    }

    #[test]
    fn call_and_return_read_every_register() {
        // LOAD 3: at two nexts too soon, at three not; nobody else names register 1 or branch register 5.
        assert_eq!(clash(&[load_word(1), NOP, CALL | 3, STOP]), Some((0, 2)));
        assert_eq!(clash(&[load_word(1), NOP, NOP, CALL | 4, STOP]), None);
        assert_eq!(clash(&[load_word(1), NOP, RETURN]), Some((0, 2)));
        assert_eq!(clash(&[load_word(1), NOP, NOP, RETURN]), None);
        // CMPB 2.
        assert_eq!(clash(&[compare(5), CALL | 2, STOP]), Some((0, 1)));
        assert_eq!(clash(&[compare(5), RETURN]), Some((0, 1)));
        assert_eq!(clash(&[compare(5), NOP, RETURN]), None);
        // Register 0 is never in flight.
        assert_eq!(clash(&[load_word(0), RETURN]), None);
    }

    #[test]
    fn the_next_of_a_call_is_its_target_only() {
        let (load_and, call_to) = (load_word(1) & !(1 << 31), 1 << 31 | 2 << 18);
        // The call's own load, read at the target after one next.
        assert_eq!(clash(&[load_and, call_to | 3, STOP, add(2, 1), STOP]), Some((0, 3)));
        // The following instruction reads it, but it is no next; the return comes after three.
        assert_eq!(clash(&[load_and, call_to | 4, add(2, 1), STOP, NOP, NOP, RETURN]), None);
        assert_eq!(clash(&[load_and, call_to | 4, add(2, 1), STOP, NOP, RETURN]), Some((0, 5)));
        // A call to itself is its own consumer.
        assert_eq!(clash(&[load_and, call_to, STOP]), Some((0, 0)));
    }

    #[test]
    fn a_return_has_no_nexts() {
        // Three nexts from the load at 2 the goto leads back to 0, which reads register 1.
        assert_eq!(clash_with(4, &[add(2, 1), STOP, load_word(1), NOP, GOTO]), Some((2, 0)));
        // The return in the nop's place ends the way and is itself the only consumer.
        assert_eq!(clash_with(4, &[add(2, 1), STOP, load_word(1), RETURN, GOTO]), Some((2, 3)));
    }

    #[test]
    fn the_lowest_consumer_over_all_results() {
        // Producer at 2: the loop leads to 0 after two, to 3 after one.
        let words = [add(3, 1), GOTO | 5, load_word(1), add(4, 1), GOTO, STOP];
        assert_eq!(clash(&words), Some((2, 3)));
        let words = [add(3, 1), GOTO | 5, load_word(1), GOTO, NOP, STOP];
        assert_eq!(clash(&words), Some((2, 0)));
    }
}
