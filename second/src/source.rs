//! The program assemble: order 2's notation in, syllables as the text program wants them out.

use crate::answer::Refusal;
use crate::assemble::assemble;
use crate::load::{MOST_SYLLABLES, ROOM_SIZE};

pub const MOST_INPUT: usize = 262_144;

pub fn source(input: &[u8]) -> Vec<u8> {
    match read(input) {
        Err(refusal) => {
            let answer = refusal.answer();
            format!("{:02X} {:08X} {:08X}\n", answer.number, answer.count, answer.place).into_bytes()
        }
        Ok(instructions) => instructions.iter().map(|syllables| line(syllables)).collect::<String>().into_bytes(),
    }
}

/// What the program reads, one list of syllables an instruction; the cause of a refusal is kept for counting.
pub fn read(input: &[u8]) -> Result<Vec<Vec<u32>>, Refusal> {
    if input.len() > MOST_INPUT {
        return Err(Refusal::new(16, 0, "over 262,144 bytes"));
    }
    assemble(input, MOST_SYLLABLES, ROOM_SIZE)
}

fn line(syllables: &[u32]) -> String {
    let items: Vec<String> = syllables.iter().map(|syllable| format!("{syllable:08X}")).collect();
    format!("{}\n", items.join(" "))
}

#[cfg(test)]
mod tests {
    use super::*;

    fn printed(input: &[u8]) -> String {
        String::from_utf8(source(input)).unwrap()
    }

    #[test]
    fn one_instruction_a_line() {
        let input = b"c0 add $r0.3 = $r0.0, 5\nc1 nop\n;;\nc0 stop";
        assert_eq!(printed(input), "410C0805 C0000000\nC0040000\n");
    }

    #[test]
    fn a_refusal_is_one_line() {
        assert_eq!(printed(b"\nc0 stop;"), "12 00000000 00000002\n");
        assert_eq!(printed(b"c0 goto a"), "13 00000000 00000001\n");
        assert_eq!(printed(b"c0 goto 0-1"), "14 00000000 00000001\n");
        assert_eq!(printed(b""), "02 00000000 00000000\n");
    }

    #[test]
    fn sizes() {
        let full = "c0 nop;;\n".repeat(4096);
        assert_eq!(printed(full.as_bytes()), "C0000000\n".repeat(4096));
        assert_eq!(printed(format!("{full}c0 nop").as_bytes()), "02 00000000 00000000\n");
        let long = |length: usize| format!("c0 stop{}", "\n".repeat(length - 7));
        assert_eq!(printed(long(262_144).as_bytes()), "C0040000\n");
        assert_eq!(printed(long(262_145).as_bytes()), "10 00000000 00000000\n");
    }
}
