//! load, check, run and assemble on numbers and byte slices; each fills the answer room and returns the number.

use crate::answer::{Answer, Refusal};
use crate::assemble;
use crate::check;
use crate::load::{self, Lengths};
use crate::run;

pub fn load(table: &[u8], program: &[u8], room: &mut [u8]) -> u32 {
    let loaded = load::load(table, program, Lengths::of_load(room.len()));
    answered(loaded.map(|_| Answer::GOOD), room)
}

/// 9 puts the producer in the count's field and the consumer in the place's.
pub fn check(table: &[u8], program: &[u8], room: &mut [u8]) -> u32 {
    let loaded = load::load(table, program, Lengths::of_load(room.len()));
    let checked = loaded.map(|(table, program)| match check::check(&table, &program) {
        None => Answer::GOOD,
        Some(clash) => Answer { number: 9, count: clash.producer, place: clash.consumer },
    });
    answered(checked, room)
}

pub fn run(
    table: &[u8],
    program: &[u8],
    state: &mut [u8],
    memory: &mut [u8],
    landing: &[u8],
    n: u32,
    room: &mut [u8],
) -> u32 {
    answered(run::run(table, program, state, memory, landing, n, room.len()), room)
}

/// A refusal writes nothing to the program; what is behind the syllables stays as it was.
pub fn assemble(text: &[u8], program: &mut [u8], room: &mut [u8]) -> u32 {
    let assembled = assemble::assemble(text, program.len() / 4, room.len()).map(|instructions| {
        let syllables = instructions.concat();
        for (word, syllable) in program.chunks_exact_mut(4).zip(&syllables) {
            word.copy_from_slice(&syllable.to_be_bytes());
        }
        Answer { number: 0, count: syllables.len() as u32, place: 0 }
    });
    answered(assembled, room)
}

fn answered(outcome: Result<Answer, Refusal>, room: &mut [u8]) -> u32 {
    let answer = outcome.unwrap_or_else(Refusal::answer);
    answer.write_to(room);
    answer.number
}

#[cfg(test)]
mod tests {
    use super::*;

    const ONE: [u8; 11] = [1, 4, 4, 2, 1, 0, 1, 2, 2, 3, 1];
    const STOP: [u8; 4] = [0xC0, 4, 0, 0];

    #[test]
    fn the_room_gets_number_count_place() {
        let mut room = [0xEE; 12];
        assert_eq!(load(&ONE, &STOP, &mut room), 0);
        assert_eq!(room, [0; 12]);
        // mpyll to register 1, then a reader of it at place 2.
        let words: [u32; 4] = [0xC000_0000, 0xD804_0800, 0xC108_1800, 0xC004_0000];
        let program: Vec<u8> = words.iter().flat_map(|word| word.to_be_bytes()).collect();
        assert_eq!(check(&ONE, &program, &mut room), 9);
        assert_eq!(room, [0, 0, 0, 9, 0, 0, 0, 1, 0, 0, 0, 2]);
        assert_eq!(load(&ONE, &program[..12], &mut room), 8);
        assert_eq!(room, [0, 0, 0, 8, 0, 0, 0, 0, 0, 0, 0, 2]);
    }

    #[test]
    fn a_room_of_another_size_is_never_written() {
        for size in [0, 11, 13] {
            let mut room = vec![0xEE; size];
            assert_eq!(load(&ONE, &STOP, &mut room), 2);
            assert_eq!(check(&[], &STOP, &mut room), 1);
            assert_eq!(run(&ONE, &STOP, &mut [0; 2888], &mut [], &[], 1, &mut room), 2);
            assert_eq!(room, vec![0xEE; size]);
        }
    }

    #[test]
    fn assemble_writes_the_syllables_and_nothing_behind_them() {
        let (mut program, mut room) = ([0xEE; 11], [0xEE; 12]);
        assert_eq!(assemble(b"c0 goto 1;;\nc0 stop", &mut program, &mut room), 0);
        assert_eq!(program, [0xFD, 0, 0, 1, 0xC0, 4, 0, 0, 0xEE, 0xEE, 0xEE]);
        assert_eq!(room, [0, 0, 0, 0, 0, 0, 0, 2, 0, 0, 0, 0]);
    }

    #[test]
    fn a_refused_text_leaves_the_program_as_it_was() {
        let mut program = [0xEE; 11];
        let mut refused = |text: &[u8], size: usize| {
            let mut room = vec![0xEE; size];
            let number = assemble(text, &mut program, &mut room);
            assert_eq!(program, [0xEE; 11]);
            (number, room)
        };
        let room = |number: u8, line: u8| vec![0, 0, 0, number, 0, 0, 0, 0, 0, 0, 0, line];
        assert_eq!(refused(b"c0 nop;;\nc0 stop;", 12), (18, room(18, 2)));
        assert_eq!(refused(b"c0 nop;;\nc0 goto a", 12), (19, room(19, 2)));
        assert_eq!(refused(b"c0 nop;;\nc0 goto 0-1", 12), (20, room(20, 2)));
        // 11 bytes hold two syllables.
        assert_eq!(refused(b"c0 nop;;\nc0 nop;;\nc0 stop", 12), (2, room(2, 0)));
        assert_eq!(refused(b"", 12), (2, room(2, 0)));
        // A bad room comes last and is never written.
        assert_eq!(refused(b"c0 stop", 13), (2, vec![0xEE; 13]));
        assert_eq!(refused(b"c0 stop;", 11), (18, vec![0xEE; 11]));
        assert_eq!(refused(b"c0 goto 0-1", 0), (20, vec![]));
    }
}
