//! A program: its instructions, each a stretch of syllables with their clusters.

use crate::syllable::{Class, Register, Syllable};
use crate::table::Table;

/// One syllable of an instruction, with its place and the cluster it belongs to.
#[derive(Clone, Copy, Debug)]
pub struct Placed {
    pub place: u32,
    pub cluster: u32,
    pub syllable: Syllable,
}

#[derive(Clone, Debug)]
pub struct Instruction {
    /// The place of its first syllable.
    pub place: u32,
    pub syllables: Vec<Placed>,
}

/// What an instruction has in one cluster; a copy goes into one and out of another.
pub struct Counts {
    pub syllables: u32,
    pub alu: u32,
    pub mul: u32,
    pub mem: u32,
    pub copies_in: u32,
    pub copies_out: u32,
}

impl Instruction {
    pub fn counts(&self, cluster: u32) -> Counts {
        let how_many =
            |which: &dyn Fn(&Placed) -> bool| self.syllables.iter().filter(|placed| which(placed)).count() as u32;
        let of_class = |class| how_many(&|placed| placed.cluster == cluster && placed.syllable.class() == class);
        Counts {
            syllables: how_many(&|placed| placed.cluster == cluster),
            alu: of_class(Class::Alu),
            mul: of_class(Class::Mul),
            mem: of_class(Class::Mem),
            copies_in: of_class(Class::Copy),
            copies_out: how_many(&|placed| {
                placed.syllable.class() == Class::Copy && placed.syllable.copy_source() == cluster
            }),
        }
    }

    pub fn reads(&self) -> Vec<Register> {
        let reads_of = |placed: &Placed| placed.syllable.reads(placed.cluster);
        self.syllables.iter().map(reads_of).collect::<Vec<_>>().concat()
    }

    pub fn destinations(&self) -> Vec<Register> {
        let destinations_of = |placed: &Placed| placed.syllable.destinations(placed.cluster);
        self.syllables.iter().flat_map(destinations_of).collect()
    }

    /// The results by syllable: each destination with its delay.
    pub fn results(&self, table: &Table) -> Vec<(Register, u32)> {
        let mut results = Vec::new();
        for placed in &self.syllables {
            for destination in placed.syllable.destinations(placed.cluster) {
                results.push((destination, placed.syllable.delay(destination, table)));
            }
        }
        results
    }

    pub fn is_stop(&self) -> bool {
        self.syllables.iter().any(|placed| placed.syllable.is_stop())
    }

    pub fn has_goto(&self) -> bool {
        self.syllables.iter().any(|placed| placed.syllable.is_goto())
    }

    pub fn has_call(&self) -> bool {
        self.syllables.iter().any(|placed| placed.syllable.is_call())
    }

    pub fn is_return(&self) -> bool {
        self.syllables.iter().any(|placed| placed.syllable.is_return())
    }

    pub fn target(&self) -> Option<u32> {
        self.syllables.iter().find_map(|placed| placed.syllable.target())
    }

    /// The place that comes after its last syllable.
    pub fn following(&self) -> u32 {
        self.place + self.syllables.len() as u32
    }

    /// The places that may come next: both ways of a branch, the target alone of a call, nothing of a return.
    pub fn nexts(&self) -> Vec<u32> {
        match self.target() {
            _ if self.is_stop() || self.is_return() => vec![],
            None => vec![self.following()],
            Some(target) if self.has_goto() || self.has_call() => vec![target],
            Some(target) => vec![target, self.following()],
        }
    }
}

#[derive(Debug)]
pub struct Program {
    pub instructions: Vec<Instruction>,
    /// For each place the instruction that starts there.
    starts: Vec<Option<usize>>,
}

impl Program {
    /// Splits syllables at bit 31; the last one must have it.
    pub fn split(syllables: &[Syllable]) -> Program {
        let mut instructions = Vec::new();
        let mut starts = vec![None; syllables.len()];
        let mut first = 0;
        for (index, syllable) in syllables.iter().enumerate() {
            if syllable.ends_instruction() {
                starts[first] = Some(instructions.len());
                instructions.push(instruction(first, &syllables[first..=index]));
                first = index + 1;
            }
        }
        Program { instructions, starts }
    }

    /// The place that comes after the last syllable of all.
    pub fn end(&self) -> u32 {
        self.starts.len() as u32
    }

    pub fn starting_at(&self, place: u32) -> Option<&Instruction> {
        let index = self.starts.get(place as usize).copied().flatten()?;
        Some(&self.instructions[index])
    }
}

/// The k-th set bit 30 opens cluster k-1; syllables without it inherit the cluster.
fn instruction(first: usize, stretch: &[Syllable]) -> Instruction {
    let mut opened: u32 = 0;
    let mut syllables = Vec::new();
    for (index, &syllable) in stretch.iter().enumerate() {
        if syllable.starts_cluster() {
            opened += 1;
        }
        // Before the first set bit 30 there is no cluster; refusal 5 comes before anyone asks.
        let cluster = opened.saturating_sub(1);
        syllables.push(Placed { place: (first + index) as u32, cluster, syllable });
    }
    Instruction { place: first as u32, syllables }
}
