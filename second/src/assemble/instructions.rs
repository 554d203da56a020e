//! A whole text: its instructions, the labels it gives, and every 18.

use super::lines::{lines, read, Line, Rest};
use super::operations::Operation;
use super::refusals::Fault;
use std::collections::HashMap;

/// The operations of an instruction that count, with their lines.
pub struct Instruction<'a> {
    pub operations: Vec<(u32, Operation<'a>)>,
}

impl Instruction<'_> {
    /// Clusters never fall, so the last operation's is the highest.
    fn cluster(&self) -> u32 {
        self.operations.last().map_or(0, |(_, operation)| operation.cluster)
    }

    /// How many syllables it has, a nop for each idle cluster below the last among them.
    pub fn syllables(&self) -> usize {
        let busy = |cluster: &u32| self.operations.iter().any(|(_, operation)| operation.cluster == *cluster);
        let idle = (0..self.cluster()).filter(|cluster| !busy(cluster)).count();
        self.operations.len() + idle
    }
}

pub struct Text<'a> {
    pub instructions: Vec<Instruction<'a>>,
    /// How many instructions begin on lines above a name's first giving.
    labels: HashMap<&'a [u8], usize>,
    /// The syllables before each instruction, and after the last one of all.
    places: Vec<usize>,
    /// Every 18, and every 19 for a label given twice.
    pub faults: Vec<Fault>,
}

impl<'a> Text<'a> {
    pub fn read(text: &'a [u8]) -> Text<'a> {
        let mut whole = Text { instructions: Vec::new(), labels: HashMap::new(), places: vec![0], faults: Vec::new() };
        // Whether the last instruction still goes on.
        let mut open = false;
        for (number, line) in lines(text) {
            let line = read(line);
            whole.give(number, &line);
            match whole.counted(line, open) {
                Err(cause) => whole.faults.push(Fault { line: number, number: 18, cause }),
                Ok(rest) => open = whole.take(number, rest, open),
            }
        }
        for instruction in &whole.instructions {
            whole.places.push(whole.places[whole.places.len() - 1] + instruction.syllables());
        }
        whole
    }

    /// A label counts on every line that begins with one; its first giving has the value.
    fn give(&mut self, number: u32, line: &Line<'a>) {
        if let Some(name) = line.label {
            if self.labels.contains_key(name) {
                self.faults.push(Fault { line: number, number: 19, cause: "given twice" });
            } else {
                self.labels.insert(name, self.instructions.len());
            }
        }
    }

    /// What a line without 18 has after its label.
    fn counted(&self, line: Line<'a>, open: bool) -> Result<Rest<'a>, &'static str> {
        let rest = line.rest.map_err(|misread| misread.wanted)?;
        if line.label.is_some() && open {
            return Err("no label while an instruction is open");
        }
        if rest.ends && rest.operation.is_none() && !open {
            return Err("an operation since the last ;;");
        }
        let below =
            |operation: &Operation| self.instructions.last().is_some_and(|last| operation.cluster < last.cluster());
        if open && rest.operation.as_ref().is_some_and(below) {
            return Err("a cluster that does not fall");
        }
        Ok(rest)
    }

    /// Whether an instruction is open after the line.
    fn take(&mut self, number: u32, rest: Rest<'a>, open: bool) -> bool {
        let begins = rest.operation.is_some() && !open;
        if begins {
            self.instructions.push(Instruction { operations: Vec::new() });
        }
        if let (Some(operation), Some(last)) = (rest.operation, self.instructions.last_mut()) {
            last.operations.push((number, operation));
        }
        (begins || open) && !rest.ends
    }

    /// A label's value: the syllables of all instructions that begin on lines above its own.
    pub fn value(&self, name: &[u8]) -> Option<i64> {
        self.labels.get(name).map(|&instructions| self.places[instructions] as i64)
    }
}
