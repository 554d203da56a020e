//! What is refused: of all lines' faults the lowest line, and on it the lowest number.

use super::instructions::{Instruction, Text};
use super::operations::{Field, Operation};
use crate::answer::Refusal;
use std::collections::HashSet;

#[derive(Clone, Copy, Debug, PartialEq, Eq)]
pub struct Fault {
    pub line: u32,
    pub number: u32,
    pub cause: &'static str,
}

/// The syllables of a text without 18, 19 and 20.
pub fn read(text: &[u8]) -> Result<Vec<Vec<u32>>, Refusal> {
    let text = Text::read(text);
    match lowest(&faults(&text)) {
        Some(fault) => Err(Refusal::new(fault.number, fault.line, fault.cause)),
        None => Ok(text.instructions.iter().map(|instruction| syllables(&text, instruction)).collect()),
    }
}

pub fn lowest(faults: &[Fault]) -> Option<Fault> {
    faults.iter().copied().min_by_key(|fault| (fault.line, fault.number))
}

/// All faults of a text: 18, 19, and 20 on lines with neither.
pub fn faults(text: &Text) -> Vec<Fault> {
    let mut faults = text.faults.clone();
    let operations = || text.instructions.iter().flat_map(|instruction| &instruction.operations);
    for (line, operation) in operations() {
        let uses = operation.value.as_ref().map_or(Vec::new(), |value| value.expression.uses());
        if uses.iter().any(|name| text.value(name).is_none()) {
            faults.push(Fault { line: *line, number: 19, cause: "missing" });
        }
    }
    let lines: HashSet<u32> = faults.iter().map(|fault| fault.line).collect();
    for (line, operation) in operations().filter(|(line, _)| !lines.contains(line)) {
        if let Err(cause) = word(text, operation) {
            faults.push(Fault { line: *line, number: 20, cause });
        }
    }
    faults
}

/// The operation's syllable without bits 31 and 30, its value in its field.
fn word(text: &Text, operation: &Operation) -> Result<u32, &'static str> {
    let Some(value) = &operation.value else {
        return Ok(operation.word);
    };
    let label = |name: &[u8]| text.value(name).expect("a label that is given");
    let (field, number) = (value.field, value.expression.value(&label)?);
    if number < field.least() || number > field.greatest() {
        return Err(outside(field, number));
    }
    Ok(operation.word | field.bits(number))
}

fn outside(field: Field, value: i64) -> &'static str {
    match (field, value < field.least()) {
        (Field::Immediate, true) => "an immediate below its field",
        (Field::Immediate, false) => "an immediate above its field",
        (Field::Offset, true) => "an offset below its field",
        (Field::Offset, false) => "an offset above its field",
        (Field::GotoTarget, true) => "goto's target below 0",
        (Field::GotoTarget, false) => "goto's target above its field",
        (Field::BranchTarget, true) => "a branch's target below 0",
        (Field::BranchTarget, false) => "a branch's target above its field",
        (Field::CallTarget, true) => "call's target below 0",
        (Field::CallTarget, false) => "call's target above its field",
    }
}

/// An instruction's syllables: bit 30 where a cluster starts, a nop for each idle one before, bit 31 on the last.
fn syllables(text: &Text, instruction: &Instruction) -> Vec<u32> {
    let mut syllables = Vec::new();
    let mut started = 0;
    for (_, operation) in &instruction.operations {
        while started < operation.cluster {
            syllables.push(1 << 30);
            started += 1;
        }
        let starts = operation.cluster == started;
        started += u32::from(starts);
        let word = word(text, operation).expect("a value that fits");
        syllables.push(u32::from(starts) << 30 | word);
    }
    if let Some(last) = syllables.last_mut() {
        *last |= 1 << 31;
    }
    syllables
}

#[cfg(test)]
mod tests {
    use crate::assemble::assemble;

    /// Number and place.
    fn refused(text: &str) -> (u32, u32) {
        assemble(text.as_bytes(), 4096, 12).map_or_else(|refusal| (refusal.number, refusal.place), |_| (0, 0))
    }

    #[test]
    fn where_labels_may_stand() {
        assert_eq!(refused("a:\nb: c0 goto a ;;\nc: c0 goto b\n;;\nd:"), (0, 0));
        // While an instruction is open, also where its ;; never comes.
        assert_eq!(refused("c0 nop\na:\n;;"), (18, 2));
        assert_eq!(refused("c0 nop\na: c0 nop;;"), (18, 2));
        assert_eq!(refused("c0 nop\na:"), (18, 2));
        assert_eq!(refused("c0 nop a:"), (18, 1));
    }

    #[test]
    fn where_an_end_may_stand() {
        assert_eq!(refused("c0 nop\n\n# any\n;;\nc0 nop"), (0, 0));
        assert_eq!(refused(";;\nc0 nop"), (18, 1));
        assert_eq!(refused("c0 nop;;\n;;"), (18, 2));
        assert_eq!(refused("a: ;;"), (18, 1));
    }

    #[test]
    fn clusters_never_fall() {
        assert_eq!(refused("c0 nop\nc1 nop\nc1 nop\nc3 nop;;\nc0 nop"), (0, 0));
        assert_eq!(refused("c0 nop\nc1 nop\nc0 nop"), (18, 3));
        // The last operation that counts is that of line 1.
        assert_eq!(refused("c1 nop\nc2 nop;\nc1 nop\n;"), (18, 2));
        assert_eq!(refused("c0 add $r0.1 = $r0.0, (x-3)*2000\nc2 nop;\nc1 nop\nc0 nop\nc1 nop;;\nx:"), (18, 2));
    }

    #[test]
    fn given_twice_and_missing() {
        assert_eq!(refused("a:\nb:\na: c0 goto b"), (19, 3));
        assert_eq!(refused("a:\na:\na:\nc0 nop"), (19, 2));
        assert_eq!(refused("c0 nop;;\nc0 goto b"), (19, 2));
        assert_eq!(refused("A:\nc0 goto a"), (19, 2));
        // The first giving has the value.
        assert_eq!(refused("c0 add $r0.1 = $r0.0, (a-1)*2000;;\na: c0 nop;;\na: c0 nop"), (19, 3));
        assert_eq!(refused("c0 add $r0.1 = $r0.0, (a-2)*2000;;\na: c0 nop;;\na: c0 nop"), (20, 1));
    }

    #[test]
    fn the_lowest_line_then_the_lowest_number() {
        assert_eq!(refused("c0 goto 0-1;;\nc0 goto b;;\nc0 nop;"), (20, 1));
        assert_eq!(refused("c0 goto b;;\nc0 goto 0-1;;\nc0 nop;"), (19, 1));
        assert_eq!(refused("a:\na: c0 nop;"), (18, 2));
        assert_eq!(refused("a:\na: c0 goto 0-1"), (19, 2));
        assert_eq!(refused("c0 goto (0-1)*b"), (19, 1));
    }

    #[test]
    fn of_a_line_with_18_only_the_label_counts() {
        // Its label is given, though it stands where none may.
        assert_eq!(refused("c0 goto a;;\na: $;;\n"), (18, 2));
        assert_eq!(refused("c0 goto a\na: c0 nop;;"), (18, 2));
        assert_eq!(refused("c0 goto b;;\na: b:"), (19, 1));
        // A second giving counts, but 18 is lower.
        assert_eq!(refused("c0 nop;;\na: $\na:"), (18, 2));
        // No use.
        assert_eq!(refused("c0 goto a $"), (18, 1));
        // No syllable: a is 1.
        assert_eq!(refused("c0 add $r0.1 = $r0.0, (a-1)*2000;;\nc0 nop $ ;;\na:"), (18, 2));
        // No ;;, so the instruction goes on: it has 3 syllables, the last one on a line below the label.
        assert_eq!(refused("c0 add $r0.1 = $r0.0, (a-3)*2000\n$ ;;\nc0 nop\na:\nc0 nop"), (18, 2));
        // It opens nothing: the label of line 3 may stand, and so the lowest 18 is that of line 2.
        assert_eq!(refused("c0 add $r0.1 = $r0.0, (a-1)*2000;;\nc0 nop $\na: c0 nop"), (18, 2));
    }

    #[test]
    fn a_label_counts_instructions_that_begin_above_it() {
        // With their nops: cluster 2 alone has three syllables.
        assert_eq!(refused("c2 nop;;\na: c0 goto a\n;;\nc0 add $r0.1 = $r0.0, (a-3)*2000"), (0, 0));
        assert_eq!(refused("c0 add $r0.1 = $r0.0, (a-3)*2000\nc2 nop\nc2 nop;;\na:"), (20, 1));
        assert_eq!(refused("c0 add $r0.1 = $r0.0, (a-4)*2000\nc2 nop\nc2 nop;;\na:"), (0, 0));
    }

    #[test]
    fn after_these_the_sizes() {
        let cause = |text: &str, words, room| assemble(text.as_bytes(), words, room).err().map(|refusal| refusal.cause);
        assert_eq!(cause("", 9, 12), Some("no syllable"));
        assert_eq!(cause("a:\n# c0 nop", 9, 0), Some("no syllable"));
        assert_eq!(cause("c3 nop", 4, 12), None);
        assert_eq!(cause("c3 nop", 3, 12), Some("more than the program holds"));
        assert_eq!(cause("c3 nop", 3, 13), Some("more than the program holds"));
        assert_eq!(cause("c3 nop", 4, 13), Some("room size"));
        assert_eq!(cause(&"c3 nop;;\n".repeat(1024), 4096, 12), None);
        assert_eq!(cause(&"c3 nop;;\n".repeat(1025), 9999, 12), Some("over 4,096 syllables"));
        assert_eq!(cause(";", 0, 0), Some("cluster"));
    }

    #[test]
    fn any_length_has_an_answer() {
        assert_eq!(refused(&"\0".repeat(1_000_000)), (18, 1));
        assert_eq!(refused(&" ".repeat(1_000_000)), (2, 0));
        assert_eq!(refused(&"\n".repeat(1_000_000)), (2, 0));
        assert_eq!(refused(&format!("{}:", "a".repeat(1_000_000))), (2, 0));
        assert_eq!(refused(&"a".repeat(1_000_000)), (18, 1));
        assert_eq!(refused(&format!("c0 goto {}", "1".repeat(1_000_000))), (20, 1));
        assert_eq!(refused(&"c0 nop\n".repeat(200_000)), (2, 0));
    }
}
