//! Order 2: text in the manual's notation, read into syllables. The modules go as the notation page does: tokens and lines,
//! operations, expressions, the instructions and labels of a whole text, what is refused.

pub mod expressions;
pub mod instructions;
pub mod lines;
pub mod operations;
pub mod refusals;
pub mod tokens;

use crate::answer::Refusal;
use crate::load::{MOST_SYLLABLES, ROOM_SIZE};

/// The syllables, instruction by instruction; `words` is how many the lent program holds.
pub fn assemble(text: &[u8], words: usize, room: usize) -> Result<Vec<Vec<u32>>, Refusal> {
    let instructions = refusals::read(text)?;
    let syllables: usize = instructions.iter().map(Vec::len).sum();
    if syllables == 0 {
        return Err(Refusal::new(2, 0, "no syllable"));
    }
    if syllables > MOST_SYLLABLES {
        return Err(Refusal::new(2, 0, "over 4,096 syllables"));
    }
    if syllables > words {
        return Err(Refusal::new(2, 0, "more than the program holds"));
    }
    if room != ROOM_SIZE {
        return Err(Refusal::new(2, 3, "room size"));
    }
    Ok(instructions)
}
