//! Programs that load and check passes, from quiet starts: no landing list may make a difference.

use crate::generate::random::Random;
use crate::generate::{checks, draft, runs, schedule, states};
use crate::requests::{Request, Run};
use second::load::{load, Lengths};
use second::plain::Plain;
use second::state::State;

/// So many landing lists for each program.
pub const LISTS: u64 = 4;

/// The requests of so many programs; those of one program differ in their landing lists only.
pub fn requests(seed: u64, count: u64) -> impl Iterator<Item = Request> + Send {
    (0..count).flat_map(move |index| {
        let mut random = Random::new(seed, index);
        let first = passing(&mut random);
        (0..LISTS).map(move |list| {
            let landing = match list {
                0 => first.landing.clone(),
                // Everything lands at once.
                1 => vec![0; 4000],
                _ => {
                    let length = random.pick(&[5, 40, 4000]);
                    random.bytes(length)
                }
            };
            Request::Run(Run { landing, ..first.clone() })
        })
    })
}

fn passing(random: &mut Random) -> Run {
    let memory = runs::memory_length(random).min(4096);
    let (table, draft) = loop {
        let table = checks::table(random);
        let mut draft = runs::program(random, &table, memory, runs::SUBROUTINES);
        if schedule::repair(&table, &mut draft, 400) {
            break (table, draft);
        }
    };
    let mut state = states::quiet(random, &draft.places(), memory);
    state.link = states::link(random, &draft.places(), draft.syllables() as u32);
    finished(random, table, &draft, state, memory)
}

fn finished(random: &mut Random, table: Vec<u8>, draft: &draft::Draft, state: State, memory: usize) -> Run {
    let program = draft.bytes();
    let memory = random.bytes(memory);
    let landing = runs::landing(random);
    let (parsed, loaded) = load(&table, &program, Lengths::of_load(12)).expect("a program that loads");
    let n = runs::number_of_instructions(random, &parsed, &loaded, &state, &memory, &landing);
    Run { table, program, state: state.image(), memory, landing, n, room: random.bytes(12) }
}

/// Number, count, place, memory, landed registers and link register as on the plain machine, and never 11.
pub fn as_plain(request: &Request, answer: &[u8]) -> Option<String> {
    let Request::Run(call) = request else { return Some("no run\n".to_string()) };
    let word = |at: usize| u32::from_be_bytes([answer[at], answer[at + 1], answer[at + 2], answer[at + 3]]);
    let mut state = State::from_image(&answer[16..16 + call.state.len()]);
    let memory = &answer[16 + call.state.len()..];

    let (table, program) = load(&call.table, &call.program, Lengths::of_load(12)).expect("a program that loads");
    let start = State::from_image(&call.state);
    let mut plain = Plain {
        place: start.place,
        values: start.cells.map(|cell| cell.value),
        link: start.link,
        memory: call.memory.clone(),
    };
    let expected = plain.run(&table, &program, call.n);

    let (number, count, place) = (word(4), word(8), word(12));
    let wrong = |what: &str| Some(format!("{what}: plain {expected:?}, answered {number} {count} {place}\n"));
    if number == 11 {
        return wrong("number 11 although check passes");
    }
    if word(0) != number || state.place != place {
        return wrong("the answer does not agree with itself");
    }
    if (number, count, place) != (expected.number, expected.count, expected.place) {
        return wrong("number, count or place");
    }
    if memory != plain.memory {
        return wrong("memory");
    }
    state.land_everything();
    if state.cells.map(|cell| cell.value) != plain.values {
        return wrong("landed registers");
    }
    if state.link != plain.link {
        return wrong("link register");
    }
    None
}

#[cfg(test)]
mod tests {
    use super::*;

    #[test]
    fn every_field_of_an_answer_is_judged() {
        let request = requests(1, 1).next().expect("a request");
        let good = request.answer();
        assert_eq!(as_plain(&request, &good), None);
        // Result, number, count and place, the state's place, a value, the link, the first byte of memory.
        for at in [3, 7, 11, 15, 16 + 3, 16 + 4 + 10 + 3, 16 + 2884, 16 + 2887, 16 + 2888] {
            let mut bad = good.clone();
            bad[at] ^= 1;
            assert!(as_plain(&request, &bad).is_some(), "byte {at}");
        }
    }
}
