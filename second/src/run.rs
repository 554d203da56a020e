//! The run: instruction by instruction, with landing bytes, to a pause, a stop or a fault.

use crate::answer::{Answer, Refusal};
use crate::effects::{effects, write_stores, Fault};
use crate::load::{load, Lengths};
use crate::program::{Instruction, Program};
use crate::state::{Cell, State};
use crate::syllable::Register;
use crate::table::Table;

pub const PAUSED: u32 = 0;
pub const STOPPED: u32 = 255;

/// The landing bytes of one call and how many of them are taken.
pub struct Landings<'a> {
    bytes: &'a [u8],
    taken: usize,
}

impl<'a> Landings<'a> {
    pub fn new(bytes: &'a [u8]) -> Landings<'a> {
        Landings { bytes, taken: 0 }
    }

    /// The landing d of the next result, 1 to L; past the end of the list it is L.
    fn choose(&mut self, delay: u32) -> u32 {
        let byte = self.bytes.get(self.taken);
        self.taken += 1;
        byte.map_or(delay, |&byte| 1 + u32::from(byte) % delay)
    }
}

/// Runs n instructions on bytes: state image and memory are written, unless the run is refused.
pub fn run(
    table: &[u8],
    program: &[u8],
    image: &mut [u8],
    memory: &mut [u8],
    landing: &[u8],
    n: u32,
    room: usize,
) -> Result<Answer, Refusal> {
    let lengths = Lengths { memory: Some(memory.len()), image: Some(image.len()), room };
    let (table, program) = load(table, program, lengths)?;
    let mut state = State::from_image(image);
    if let Some(rule) = state.broken_rule(&program) {
        return Err(Refusal::new(10, 0, rule));
    }
    let answer = run_state(&table, &program, &mut state, memory, landing, n);
    image.copy_from_slice(&state.image());
    Ok(answer)
}

/// Runs n instructions from a valid state.
pub fn run_state(
    table: &Table,
    program: &Program,
    state: &mut State,
    memory: &mut [u8],
    landing: &[u8],
    n: u32,
) -> Answer {
    let mut landings = Landings::new(landing);
    let mut count = 0;
    let number = loop {
        if count == n {
            break PAUSED;
        }
        if at(program, state).is_stop() {
            state.land_everything();
            break STOPPED;
        }
        match step(table, program, state, memory, &mut landings) {
            Ok(()) => count += 1,
            Err(fault) => break fault.number,
        }
    };
    Answer { number, count, place: state.place }
}

/// The instruction at the state's place.
pub fn at<'a>(program: &'a Program, state: &State) -> &'a Instruction {
    program.starting_at(state.place).expect("a valid place")
}

/// Executes the instruction at the state's place, no stop; a fault leaves everything as it was.
pub fn step(
    table: &Table,
    program: &Program,
    state: &mut State,
    memory: &mut [u8],
    landings: &mut Landings,
) -> Result<(), Fault> {
    let instruction = at(program, state);
    fault_11(instruction, state)?;
    let read = |register| state.cell(register).value;
    let effects = effects(table, program, instruction, &read, state.link, memory)?;
    // What was in flight before falls; the results of this instruction do not fall yet.
    for cell in &mut state.cells {
        cell.fall();
    }
    for outcome in &effects.outcomes {
        let d = landings.choose(outcome.delay);
        *state.cell_mut(outcome.register) = sent(state.cell(outcome.register), outcome.value, outcome.delay, d);
    }
    write_stores(&effects.stores, memory);
    // Setting the link takes no landing byte: it stands there at once.
    state.link = effects.link;
    state.place = effects.next;
    Ok(())
}

/// A result with delay L and landing d leaves busy L-1 and landing d-1; d = 1 lands at once.
fn sent(before: Cell, value: u32, delay: u32, d: u32) -> Cell {
    let (busy, landing) = (delay as u8 - 1, d as u8 - 1);
    if landing == 0 {
        Cell { value, waiting: 0, busy, landing }
    } else {
        Cell { value: before.value, waiting: value, busy, landing }
    }
}

fn fault_11(instruction: &Instruction, state: &State) -> Result<(), Fault> {
    let busy = |register: &Register| state.cell(*register).busy > 0;
    if instruction.reads().iter().any(busy) {
        return Err(Fault { number: 11, cause: "busy register read" });
    }
    if instruction.destinations().iter().any(busy) {
        return Err(Fault { number: 11, cause: "busy register a destination" });
    }
    Ok(())
}

#[cfg(test)]
mod tests {
    use super::*;

    // Delays ALU 1, CMPB 2, MUL 2, LOAD 3, COPY 1; four memory operations.
    const ONE: [u8; 11] = [1, 8, 8, 2, 4, 0, 1, 2, 2, 3, 1];
    const STOP: u32 = 0xC004_0000;
    const ALONE: u32 = 3 << 30;
    const NOP: u32 = ALONE;
    const OPEN: u32 = 1 << 30;
    const END: u32 = 1 << 31;
    const CALL: u32 = 2 << 18;
    const RETURN: u32 = 3 << 18;

    fn general(number: u32) -> Register {
        Register::General { cluster: 0, number }
    }

    fn memory_op(opcode: u32, t: u32, s1: u32, offset: u32) -> u32 {
        opcode << 24 | t << 18 | s1 << 12 | offset & 0xFFF
    }

    fn put(t: u32, immediate: u32) -> u32 {
        1 << 24 | t << 18 | 1 << 11 | immediate & 0x7FF
    }

    struct Call {
        words: Vec<u32>,
        state: State,
        memory: Vec<u8>,
        landing: Vec<u8>,
    }

    fn call(words: &[u32]) -> Call {
        Call { words: words.to_vec(), state: State::zero(), memory: vec![0; 16], landing: vec![] }
    }

    impl Call {
        fn run(&mut self, n: u32) -> (u32, u32, u32) {
            let program: Vec<u8> = self.words.iter().flat_map(|word| word.to_be_bytes()).collect();
            let mut image = self.state.image();
            let outcome = super::run(&ONE, &program, &mut image, &mut self.memory, &self.landing, n, 12);
            self.state = State::from_image(&image);
            match outcome {
                Ok(answer) => (answer.number, answer.count, answer.place),
                Err(refusal) => (refusal.number, 0, refusal.place),
            }
        }

        fn cell(&self, number: u32) -> (u32, u32, u8, u8) {
            let cell = self.state.cell(general(number));
            (cell.value, cell.waiting, cell.busy, cell.landing)
        }
    }

    #[test]
    fn the_swap() {
        let mut call = call(&[0x410C_4800, 0x8110_3800, STOP]);
        call.state.cell_mut(general(3)).value = 7;
        call.state.cell_mut(general(4)).value = 9;
        assert_eq!(call.run(10), (255, 1, 2));
        assert_eq!((call.cell(3).0, call.cell(4).0), (9, 7));
    }

    #[test]
    fn nothing_done_with_n_0() {
        let mut call = call(&[STOP]);
        *call.state.cell_mut(general(1)) = Cell { value: 1, waiting: 2, busy: 3, landing: 3 };
        assert_eq!(call.run(0), (0, 0, 0));
        assert_eq!(call.cell(1), (1, 2, 3, 3));
        assert_eq!(call.run(1), (255, 0, 0));
        assert_eq!(call.cell(1), (2, 0, 0, 0));
    }

    #[test]
    fn a_load_lands_when_its_byte_says() {
        // Landing byte 0, 1, 2, 3 choose d = 1, 2, 3, 1; no byte chooses 3.
        let cells = [
            (vec![0], [(0x80, 0, 2, 0), (0x80, 0, 1, 0), (0x80, 0, 0, 0)]),
            (vec![1], [(5, 0x80, 2, 1), (0x80, 0, 1, 0), (0x80, 0, 0, 0)]),
            (vec![2], [(5, 0x80, 2, 2), (5, 0x80, 1, 1), (0x80, 0, 0, 0)]),
            (vec![3], [(0x80, 0, 2, 0), (0x80, 0, 1, 0), (0x80, 0, 0, 0)]),
            (vec![], [(5, 0x80, 2, 2), (5, 0x80, 1, 1), (0x80, 0, 0, 0)]),
        ];
        for (landing, expected) in cells {
            for (index, cell) in expected.into_iter().enumerate() {
                let mut call = call(&[ALONE | memory_op(56, 1, 0, 3), NOP, NOP, STOP]);
                call.memory[3] = 0x80;
                call.state.cell_mut(general(1)).value = 5;
                call.landing = landing.clone();
                let n = index as u32 + 1;
                assert_eq!(call.run(n), (0, n, n));
                assert_eq!(call.cell(1), cell);
            }
        }
    }

    #[test]
    fn results_take_bytes_by_syllable_but_not_for_register_0() {
        // A load to register 0, then addcg with two results, then mpyll.
        let addcg = 23 << 24 | 1 << 18 | 1 << 6;
        let multiply = 24 << 24 | 2 << 18 | 1 << 11;
        let mut call = call(&[OPEN | memory_op(52, 0, 0, 0), addcg, END | multiply, STOP]);
        // ALU delay 1 takes the first byte, CMPB 2 the second, MUL 2 the third.
        call.landing = vec![9, 0, 1];
        assert_eq!(call.run(1), (0, 1, 3));
        let carry = call.state.cell(Register::Branch { cluster: 0, number: 1 });
        assert_eq!((carry.busy, carry.landing), (1, 0));
        assert_eq!(call.cell(1), (0, 0, 0, 0));
        assert_eq!(call.cell(2), (0, 0, 1, 1));
    }

    #[test]
    fn fault_11_goes_by_busy_although_landed() {
        let mut call = call(&[ALONE | memory_op(52, 1, 0, 0), ALONE | 1 << 24 | 2 << 18 | 1 << 12 | 1 << 11, STOP]);
        call.landing = vec![0];
        assert_eq!(call.run(9), (11, 1, 1));
        assert_eq!(call.cell(1), (0, 0, 2, 0));
        // A second call faults at the same place.
        assert_eq!(call.run(9), (11, 0, 1));
        assert_eq!(call.run(0), (0, 0, 1));
    }

    #[test]
    fn fault_11_for_a_destination() {
        let mut call = call(&[ALONE | memory_op(52, 1, 0, 0), ALONE | put(1, 4), STOP]);
        assert_eq!(call.run(9), (11, 1, 1));
    }

    #[test]
    fn order_of_12_13_14() {
        let number = |syllables: &[u32]| {
            let mut words: Vec<u32> = syllables.to_vec();
            words[0] |= OPEN;
            let last = words.len() - 1;
            words[last] |= END;
            words.push(STOP);
            let mut call = call(&words);
            call.memory = vec![7; 16];
            let answer = call.run(1);
            assert!(answer.0 == 0 || call.memory == [7; 16]);
            answer
        };
        let (misaligned, beyond, both) = (memory_op(57, 0, 0, 2), memory_op(57, 0, 0, 16), memory_op(57, 0, 0, 17));
        let wrapped = memory_op(57, 0, 0, 0xFFC);
        let (word, byte) = (memory_op(57, 0, 0, 4), memory_op(59, 0, 0, 7));
        assert_eq!(number(&[misaligned]), (12, 0, 0));
        assert_eq!(number(&[beyond]), (13, 0, 0));
        assert_eq!(number(&[both]), (12, 0, 0));
        assert_eq!(number(&[wrapped]), (13, 0, 0));
        assert_eq!(number(&[beyond, misaligned]), (13, 0, 0));
        assert_eq!(number(&[misaligned, beyond]), (12, 0, 0));
        assert_eq!(number(&[word, byte]), (14, 0, 0));
        assert_eq!(number(&[word, byte, beyond]), (13, 0, 0));
        assert_eq!(number(&[word, memory_op(59, 0, 0, 8)]), (0, 1, 2));
        assert_eq!(number(&[memory_op(57, 0, 0, 12)]), (0, 1, 1));
    }

    #[test]
    fn a_load_does_not_see_a_store_of_its_own_instruction() {
        let mut call = call(&[OPEN | memory_op(59, 1, 0, 5), END | memory_op(56, 2, 0, 5), STOP]);
        call.memory[5] = 3;
        call.state.cell_mut(general(1)).value = 0x1F9;
        assert_eq!(call.run(9), (255, 1, 2));
        assert_eq!((call.cell(2).0, call.memory[5]), (3, 0xF9));
    }

    #[test]
    fn branches_go_by_their_register() {
        for (opcode, b, place) in [(62, 1, 2), (62, 0, 1), (63, 1, 1), (63, 0, 2)] {
            let mut call = call(&[ALONE | opcode << 24 | 3 << 21 | 2, STOP, STOP]);
            call.state.cell_mut(Register::Branch { cluster: 0, number: 3 }).value = b;
            assert_eq!(call.run(1), (0, 1, place));
            assert_eq!(call.run(1), (255, 0, place));
        }
    }

    /// Adds 1 to register 1.
    const COUNT: u32 = ALONE | 1 << 24 | 1 << 18 | 1 << 12 | 1 << 11 | 1;

    #[test]
    fn a_call_sets_the_link_at_once_and_a_return_keeps_it() {
        let mut call = call(&[ALONE | CALL | 2, STOP, ALONE | RETURN]);
        call.state.link = 0xFFFF_FFFF;
        assert_eq!((call.run(0), call.state.link), ((0, 0, 0), 0xFFFF_FFFF));
        assert_eq!((call.run(1), call.state.link), ((0, 1, 2), 1));
        assert_eq!((call.run(0), call.state.link), ((0, 0, 2), 1));
        assert_eq!((call.run(1), call.state.link), ((0, 1, 1), 1));
        assert_eq!((call.run(1), call.state.link), ((255, 0, 1), 1));
    }

    #[test]
    fn the_link_is_the_place_after_the_whole_instruction() {
        let mut call = call(&[OPEN | put(1, 5), CALL | 4, END | put(2, 6), STOP, ALONE | put(3, 7), ALONE | RETURN]);
        assert_eq!(call.run(1), (0, 1, 4));
        assert_eq!((call.state.link, call.cell(1).0, call.cell(2).0, call.cell(3).0), (3, 5, 6, 0));
        assert_eq!(call.run(9), (255, 2, 3));
        assert_eq!((call.state.link, call.cell(3).0), (3, 7));
    }

    #[test]
    fn one_subroutine_called_from_three_places() {
        let mut call = call(&[ALONE | CALL | 4, ALONE | CALL | 4, ALONE | CALL | 4, STOP, COUNT, ALONE | RETURN]);
        // Three times the call, the addition and the return.
        assert_eq!(call.run(99), (255, 9, 3));
        assert_eq!((call.cell(1).0, call.state.link), (3, 3));
    }

    #[test]
    fn after_an_inner_call_its_return_comes_back_again_and_again() {
        // 0 calls 2, which calls 5; then 3 and 4 go round, since the link stays 3.
        let inner = [ALONE | CALL | 2, STOP, ALONE | CALL | 5, COUNT, ALONE | RETURN, ALONE | RETURN];
        let mut call = call(&inner);
        assert_eq!((call.run(1), call.state.link), ((0, 1, 2), 1));
        assert_eq!((call.run(1), call.state.link), ((0, 1, 5), 3));
        assert_eq!((call.run(1), call.state.link), ((0, 1, 3), 3));
        assert_eq!((call.run(10), call.state.link), ((0, 10, 3), 3));
        assert_eq!(call.cell(1).0, 5);
    }

    #[test]
    fn results_of_a_call_go_in_flight_as_ever() {
        // A load beside the call, LOAD 3; the link takes no landing byte.
        let words = [OPEN | memory_op(56, 1, 0, 3), END | CALL | 3, STOP, NOP, NOP, ALONE | RETURN];
        for (landing, cell) in [(vec![0], (0x80, 0, 2, 0)), (vec![1], (0, 0x80, 2, 1)), (vec![], (0, 0x80, 2, 2))] {
            let mut call = call(&words);
            call.memory[3] = 0x80;
            call.landing = landing;
            assert_eq!((call.run(1), call.state.link), ((0, 1, 3), 2));
            assert_eq!(call.cell(1), cell);
            assert_eq!((call.run(9), call.state.link), ((255, 3, 2), 2));
            assert_eq!(call.cell(1), (0x80, 0, 0, 0));
        }
        // One instruction sooner the return is 11, landed or not.
        let mut call = call(&[OPEN | memory_op(56, 1, 0, 3), END | CALL | 3, STOP, NOP, ALONE | RETURN]);
        call.landing = vec![0];
        assert_eq!((call.run(9), call.state.link), ((11, 2, 4), 2));
        assert_eq!(call.cell(1).2, 1);
    }

    #[test]
    fn call_and_return_fault_with_11_for_any_busy_register() {
        for register in Register::ALL.into_iter().filter(|register| !register.is_register_0()) {
            // A nop lets busy fall by one.
            for (busy, number, count) in [(1, 0, 2), (2, 11, 1), (7, 11, 1)] {
                let mut at_call = call(&[NOP, ALONE | CALL | 2, STOP]);
                at_call.state.cell_mut(register).busy = busy;
                assert_eq!(at_call.run(2), (number, count, if number == 0 { 2 } else { 1 }), "{register:?}");
                assert_eq!(at_call.state.link, if number == 0 { 2 } else { 0 });
                // The link is bad: 11 comes before 17.
                let mut at_return = call(&[NOP, ALONE | RETURN]);
                at_return.state.cell_mut(register).busy = busy;
                at_return.state.link = 2;
                let number = if number == 0 { 17 } else { 11 };
                assert_eq!(at_return.run(2), (number, 1, 1), "{register:?}");
            }
        }
    }

    #[test]
    fn a_return_to_no_first_syllable_is_17() {
        let words = [NOP, OPEN, END, ALONE | RETURN];
        // Inside an instruction, at the end, beyond it, and where the low bits would be good.
        for link in [2, 4, 5, 0x1_0000, 0x4_0000, 0x8000_0000, 0xFFFF_FFFF] {
            let mut call = call(&words);
            (call.state.link, call.state.cell_mut(general(1)).value) = (link, 9);
            assert_eq!(call.run(9), (17, 2, 3));
            let before = call.state.clone();
            // A second call faults at the same place, and n = 0 does nothing.
            assert_eq!(call.run(9), (17, 0, 3));
            assert_eq!(call.run(0), (0, 0, 3));
            assert_eq!((call.state.link, &call.state), (link, &before));
        }
        for (link, place) in [(0, 0), (1, 1), (3, 3)] {
            let mut call = call(&words);
            (call.state.place, call.state.link) = (3, link);
            assert_eq!((call.run(1), call.state.link), ((0, 1, place), link));
        }
    }

    #[test]
    fn a_call_whose_own_instruction_faults_keeps_the_link() {
        let (misaligned, beyond) = (memory_op(52, 1, 0, 2), memory_op(52, 1, 0, 16));
        let (word, byte) = (memory_op(57, 0, 0, 4), memory_op(59, 0, 0, 7));
        for (number, parts) in [(12, vec![misaligned]), (13, vec![beyond]), (14, vec![word, byte])] {
            for call_first in [true, false] {
                let mut words = parts.clone();
                words.insert(if call_first { 0 } else { parts.len() }, CALL);
                words[0] |= OPEN;
                let last = words.len() - 1;
                words[last] |= END;
                words.push(STOP);
                let mut call = call(&words);
                call.state.link = 77;
                call.memory = vec![7; 16];
                let before = call.state.clone();
                assert_eq!(call.run(9), (number, 0, 0));
                assert_eq!((&call.state, &call.memory), (&before, &vec![7; 16]));
            }
        }
    }

    #[test]
    fn any_link_is_valid() {
        for link in [0, 1, 2, 0x8000_0000, 0xFFFF_FFFF] {
            let mut call = call(&[NOP, STOP]);
            call.state.link = link;
            assert_eq!((call.run(9), call.state.link), ((255, 1, 1), link));
        }
    }

    #[test]
    fn an_image_without_the_link_is_refused() {
        let program = STOP.to_be_bytes();
        for length in [2884, 2887, 2889] {
            let mut image = vec![0; length];
            let refusal = super::run(&ONE, &program, &mut image, &mut [], &[], 1, 12).unwrap_err();
            assert_eq!((refusal.number, refusal.place), (2, 2));
        }
    }

    #[test]
    fn invalid_states_are_10() {
        let b = Register::Branch { cluster: 3, number: 7 };
        let far = Register::General { cluster: 3, number: 0 };
        let last = Register::General { cluster: 3, number: 63 };
        let cell = |value, waiting, busy, landing| Cell { value, waiting, busy, landing };
        let bad = [
            (b, cell(2, 0, 0, 0)),
            (b, cell(0, 2, 1, 1)),
            (b, cell(0, 1, 1, 0)),
            (far, cell(1, 0, 0, 0)),
            (far, cell(0, 0, 1, 0)),
            (far, cell(0, 0, 1, 1)),
            (last, cell(0, 0, 1, 2)),
            (last, cell(0, 0, 8, 8)),
            (last, cell(0, 1, 1, 0)),
        ];
        for (register, cell) in bad {
            let mut call = call(&[STOP]);
            *call.state.cell_mut(register) = cell;
            let before = call.state.clone();
            assert_eq!(call.run(1), (10, 0, 0));
            assert_eq!(call.state, before);
        }
        for (register, cell) in [(b, cell(1, 1, 7, 7)), (last, cell(2, 9, 7, 1)), (last, cell(2, 0, 7, 0))] {
            let mut call = call(&[STOP]);
            *call.state.cell_mut(register) = cell;
            assert_eq!(call.run(0), (0, 0, 0));
        }
        for place in [1, 3, 4, u32::MAX] {
            let mut call = call(&[OPEN, END, STOP]);
            call.state.place = place;
            assert_eq!(call.run(0), (10, 0, 0));
        }
    }
}
