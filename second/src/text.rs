//! The text program: lines of hexadecimal in, lines of hexadecimal out.

use crate::answer::{Answer, Refusal};
use crate::load::{load, Lengths};
use crate::run::{run_state, PAUSED, STOPPED};
use crate::state::State;
use crate::table;

pub const MOST_INPUT: usize = 32_768;
pub const MOST_MEMORY: u32 = 16_384;

/// What the lines say, once they have the right form.
struct Lines {
    table: Vec<u8>,
    memory: u32,
    n: u32,
    program: Vec<u8>,
}

pub fn text(input: &[u8]) -> Vec<u8> {
    match read_and_run(input) {
        Err(refusal) => first_line(refusal.answer()).into_bytes(),
        Ok((answer, state)) => printed(answer, state).into_bytes(),
    }
}

/// What the text program comes to; the cause of a refusal is kept for counting.
pub fn read_and_run(input: &[u8]) -> Result<(Answer, State), Refusal> {
    let lines = read_lines(input)?;
    // The memory's own limit stands between the program's size and refusal 3.
    table::read(&lines.table)?;
    if lines.program.is_empty() {
        return Err(Refusal::new(2, 0, "no fourth line"));
    }
    if lines.memory > MOST_MEMORY {
        return Err(Refusal::new(2, 1, "memory size"));
    }
    let (table, program) = load(&lines.table, &lines.program, Lengths::of_load(12))?;
    let mut state = State::zero();
    let mut memory = vec![0; lines.memory as usize];
    let answer = run_state(&table, &program, &mut state, &mut memory, &[], lines.n);
    Ok((answer, state))
}

fn read_lines(input: &[u8]) -> Result<Lines, Refusal> {
    if input.len() > MOST_INPUT {
        return Err(Refusal::new(16, 0, "over 32,768 bytes"));
    }
    let mut lines = Lines { table: Vec::new(), memory: 0, n: 0, program: Vec::new() };
    let mut rest = input;
    let mut number = 0;
    while !rest.is_empty() {
        number += 1;
        let refused = |cause| Refusal::new(16, number, cause);
        let end = rest.iter().position(|&byte| byte == b'\n').ok_or(refused("no newline"))?;
        let line = &rest[..end];
        rest = &rest[end + 1..];
        match number {
            1 => {
                let bytes = items(line, 2).map_err(refused)?;
                lines.table = bytes.iter().map(|&byte| byte as u8).collect();
            }
            2 => lines.memory = one_item(line).map_err(refused)?,
            3 => lines.n = one_item(line).map_err(refused)?,
            _ => {
                let words = items(line, 8).map_err(refused)?;
                bit_31_on_the_last_only(&words).map_err(refused)?;
                lines.program.extend(words.iter().flat_map(|word| word.to_be_bytes()));
            }
        }
    }
    if number < 3 {
        return Err(Refusal::new(16, number + 1, "line missing"));
    }
    Ok(lines)
}

/// The items of a line: at least one, single blanks between, each of so many upper-case digits.
fn items(line: &[u8], digits: usize) -> Result<Vec<u32>, &'static str> {
    line.split(|&byte| byte == b' ').map(|item| number(item, digits)).collect()
}

fn one_item(line: &[u8]) -> Result<u32, &'static str> {
    match items(line, 8)?[..] {
        [item] => Ok(item),
        _ => Err("more than one item"),
    }
}

fn number(item: &[u8], digits: usize) -> Result<u32, &'static str> {
    if item.is_empty() {
        return Err("item missing");
    }
    let mut number = 0u64;
    for &byte in item {
        let digit = match byte {
            b'0'..=b'9' => byte - b'0',
            b'A'..=b'F' => byte - b'A' + 10,
            b'a'..=b'f' => return Err("lower case"),
            _ => return Err("no digit"),
        };
        number = (number * 16 + u64::from(digit)) % (1 << 32);
    }
    if item.len() != digits {
        return Err("count of digits");
    }
    Ok(number as u32)
}

fn bit_31_on_the_last_only(words: &[u32]) -> Result<(), &'static str> {
    for (index, word) in words.iter().enumerate() {
        let is_last = index == words.len() - 1;
        match (is_last, word >> 31 == 1) {
            (true, false) => return Err("bit 31 missing"),
            (false, true) => return Err("bit 31 before the last"),
            _ => {}
        }
    }
    Ok(())
}

fn first_line(answer: Answer) -> String {
    format!("{:02X} {:08X} {:08X}\n", answer.number, answer.count, answer.place)
}

/// A fault prints line 1 only; otherwise each non-zero register follows once everything has landed.
fn printed(answer: Answer, mut state: State) -> String {
    let mut output = first_line(answer);
    if answer.number != PAUSED && answer.number != STOPPED {
        return output;
    }
    state.land_everything();
    for cluster in 0..4 {
        let general = (0..64).map(|number| (number, 64 * cluster + number));
        let branch = (0..8).map(|number| (0x40 + number, 256 + 8 * cluster + number));
        for (register, index) in general.chain(branch) {
            let value = state.cells[index].value;
            if value != 0 {
                output += &format!("{cluster:02X} {register:02X} {value:08X}\n");
            }
        }
    }
    output
}

#[cfg(test)]
mod tests {
    use super::*;

    const HEAD: &str = "01 04 04 02 01 00 01 02 02 03 01\n";
    const EXAMPLE: &str = "01 04 04 02 01 00 01 02 02 03 01\n00000000\n00000010\nC10C0805\nC0040000\n";

    fn given(input: &str) -> String {
        String::from_utf8(text(input.as_bytes())).unwrap()
    }

    #[test]
    fn the_example() {
        assert_eq!(given(EXAMPLE), "FF 00000001 00000001\n00 03 00000005\n");
    }

    #[test]
    fn lines_missing() {
        assert_eq!(given(""), "10 00000000 00000001\n");
        assert_eq!(given(HEAD), "10 00000000 00000002\n");
        assert_eq!(given(&format!("{HEAD}00000000\n")), "10 00000000 00000003\n");
        assert_eq!(given(&format!("{HEAD}00000000\n00000001\n")), "02 00000000 00000000\n");
        assert_eq!(given("01\n00000000\n00000001\n"), "01 00000000 00000000\n");
    }

    #[test]
    fn the_form_of_lines() {
        let line_4 = |line: &str| given(&format!("{HEAD}00000000\n00000010\n{line}"));
        let bad = "10 00000000 00000004\n";
        for line in [
            "c10C0805\n",
            "C10C0805",
            "\n",
            " C0040000\n",
            "C0040000 \n",
            "40000000  80000000\n",
            "40000000\t80000000\n",
            "C0040000\r\n",
            "C004000\n",
            "0C0040000\n",
            "C0040000 C0040000\n",
            "40000000\n",
            "G0040000\n",
        ] {
            assert_eq!(line_4(line), bad, "{line:?}");
        }
        assert_eq!(line_4("C0040000\n\n"), "10 00000000 00000005\n");
        assert_eq!(line_4("C0040000\n"), "FF 00000000 00000000\n");
    }

    #[test]
    fn sixteen_comes_before_one() {
        assert_eq!(given("00\n00000000\n00000001\nC004000\n"), "10 00000000 00000004\n");
        assert_eq!(given("00\n00000000 00000000\n00000001\nC0040000\n"), "10 00000000 00000002\n");
    }

    #[test]
    fn sizes() {
        let memory = |length: &str| given(&format!("{HEAD}{length}\n00000010\nC0040000\n"));
        assert_eq!(memory("00004000"), "FF 00000000 00000000\n");
        assert_eq!(memory("00004001"), "02 00000000 00000001\n");
        assert_eq!(given(&"0".repeat(32_769)), "10 00000000 00000000\n");
        assert_eq!(given(&"0".repeat(32_768)), "10 00000000 00000001\n");
    }

    #[test]
    fn a_pause_prints_what_will_land() {
        // mpyll with delay 2 pauses in flight: register 2 gets 3 times 3.
        let lines = "C1040803\nD8081001\nC0040000\n";
        assert_eq!(
            given(&format!("{HEAD}00000000\n00000002\n{lines}")),
            "00 00000002 00000002\n00 01 00000003\n00 02 00000009\n"
        );
    }

    #[test]
    fn a_fault_prints_line_1_only() {
        let lines = "C1040803\nF40C0000\nC0040000\n";
        assert_eq!(given(&format!("{HEAD}00000000\n00000010\n{lines}")), "0D 00000001 00000001\n");
    }

    #[test]
    fn a_return_from_the_start_goes_to_place_0_and_no_link_is_printed() {
        // The link starts at 0: 1 is added to register 1, then the return leads back.
        assert_eq!(
            given(&format!("{HEAD}00000000\n00000006\nC1041801\nC00C0000\n")),
            "00 00000006 00000000\n00 01 00000003\n"
        );
        // A call of 2, a stop, an addition and a return.
        assert_eq!(
            given(&format!("{HEAD}00000000\n00000010\nC0080002\nC0040000\nC1041801\nC00C0000\n")),
            "FF 00000003 00000001\n00 01 00000001\n"
        );
        // A return with a nop is 8, the return's place.
        assert_eq!(given(&format!("{HEAD}00000000\n00000010\n40000000 800C0000\n")), "08 00000000 00000001\n");
    }

    #[test]
    fn branch_registers_are_40_to_47() {
        // cmpeq to branch register 7 of cluster 0.
        assert_eq!(
            given(&format!("{HEAD}00000000\n00000010\nE81C0800\nC0040000\n")),
            "FF 00000001 00000001\n00 47 00000001\n"
        );
    }
}
