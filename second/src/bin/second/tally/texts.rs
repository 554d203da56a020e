//! What texts came to.

use super::refusals::refused;
use super::Tally;
use second::run::{PAUSED, STOPPED};
use second::text::read_and_run;

pub fn read(tally: &mut Tally, input: &[u8]) {
    match read_and_run(input) {
        Err(refusal) if refusal.number == 16 => {
            let line = match refusal.place {
                place @ 0..=3 => format!("line {place}"),
                _ => "later line".to_string(),
            };
            tally.count(format!("16 {}, {line}", refusal.cause));
        }
        Err(refusal) if refusal.number == 1 => tally.count(format!("01 {}", refusal.cause)),
        Err(refusal) if refusal.number == 2 => tally.count(refused(refusal, &[], &[])),
        Err(refusal) => tally.count(format!("{:02} as in load", refusal.number)),
        Ok((answer, state)) => {
            // Only a call makes it so.
            if state.link != 0 {
                tally.count("a call was executed".to_string());
            }
            let landing = state.cells.iter().any(|cell| cell.landing > 0);
            let way = if landing { " with results on their way" } else { "" };
            tally.count(match answer.number {
                PAUSED => format!("00 paused{way}"),
                STOPPED => "FF stopped".to_string(),
                number => format!("{number} fault"),
            });
        }
    }
}
