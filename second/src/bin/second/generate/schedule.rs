//! Makes programs keep the schedule, just so.

use super::draft::{Draft, Part, NOP};
use second::check;
use second::load::{load, Lengths};

/// Puts nops before consumers until the program passes; true if it does within the limit.
pub fn repair(table: &[u8], draft: &mut Draft, limit: usize) -> bool {
    for _ in 0..limit {
        let Ok((parsed, program)) = load(table, &draft.bytes(), Lengths::of_load(12)) else { return false };
        let Some(clash) = check::check(&parsed, &program) else { return true };
        let at = draft.places().iter().position(|&place| place == clash.consumer).expect("a consumer");
        draft.insert(at, vec![Part::new(true, NOP)]);
    }
    false
}

/// True if check has nothing against the program.
pub fn passes(table: &[u8], draft: &Draft) -> bool {
    match load(table, &draft.bytes(), Lengths::of_load(12)) {
        Ok((table, program)) => check::check(&table, &program).is_none(),
        Err(_) => false,
    }
}

/// The instructions that are single nops.
pub fn idle(draft: &Draft) -> Vec<usize> {
    let last = draft.instructions.len() - 1;
    (0..last).filter(|&at| draft.instructions[at].len() == 1 && draft.instructions[at][0].word == NOP).collect()
}
