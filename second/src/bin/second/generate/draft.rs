//! A draft: a program whose targets are instructions, so that it can still grow and shrink.

use second::program::Program;
use second::syllable::Syllable;

/// A syllable without bit 31; `aim` is the instruction its target will name.
#[derive(Clone, Copy)]
pub struct Part {
    pub opens: bool,
    pub word: u32,
    pub aim: Option<usize>,
}

impl Part {
    pub fn new(opens: bool, word: u32) -> Part {
        Part { opens, word, aim: None }
    }

    pub fn opcode(&self) -> u32 {
        self.word >> 24 & 63
    }

    /// A call, a goto or a branch.
    pub fn has_target(&self) -> bool {
        Syllable(self.word).target().is_some()
    }
}

#[derive(Clone, Default)]
pub struct Draft {
    pub instructions: Vec<Vec<Part>>,
}

pub const NOP: u32 = 0;
pub const STOP: u32 = 1 << 18;
pub const CALL: u32 = 2 << 18;
pub const RETURN: u32 = 3 << 18;

impl Draft {
    pub fn syllables(&self) -> usize {
        self.instructions.iter().map(Vec::len).sum()
    }

    /// The place of each instruction's first syllable.
    pub fn places(&self) -> Vec<u32> {
        let mut place = 0;
        let mut places = Vec::new();
        for instruction in &self.instructions {
            places.push(place);
            place += instruction.len() as u32;
        }
        places
    }

    pub fn words(&self) -> Vec<u32> {
        let places = self.places();
        let mut words = Vec::new();
        for instruction in &self.instructions {
            for (index, part) in instruction.iter().enumerate() {
                let ends = index == instruction.len() - 1;
                let target = part.aim.map_or(0, |aim| places[aim]);
                words.push(u32::from(ends) << 31 | u32::from(part.opens) << 30 | part.word | target);
            }
        }
        words
    }

    pub fn bytes(&self) -> Vec<u8> {
        self.words().iter().flat_map(|word| word.to_be_bytes()).collect()
    }

    /// The instructions as the machine sees them, whether they load or not.
    pub fn split(&self) -> Program {
        let syllables: Vec<Syllable> = self.words().into_iter().map(Syllable).collect();
        Program::split(&syllables)
    }

    /// Puts an instruction in; whoever aimed at the one there aims at the new one now.
    pub fn insert(&mut self, at: usize, instruction: Vec<Part>) {
        self.shift_aims(|aim| if aim > at { aim + 1 } else { aim });
        self.instructions.insert(at, instruction);
    }

    /// Takes out an instruction that is not the last; whoever aimed at it aims at the next one.
    pub fn remove(&mut self, at: usize) {
        self.instructions.remove(at);
        self.shift_aims(|aim| if aim > at { aim - 1 } else { aim });
    }

    fn shift_aims(&mut self, shift: impl Fn(usize) -> usize) {
        for part in self.instructions.iter_mut().flatten() {
            part.aim = part.aim.map(&shift);
        }
    }
}

/// The cluster of each part: one less than the opened ones so far.
pub fn clusters(instruction: &[Part]) -> Vec<usize> {
    let mut opened = 0usize;
    let mut clusters = Vec::new();
    for part in instruction {
        opened += usize::from(part.opens);
        clusters.push(opened.saturating_sub(1));
    }
    clusters
}
