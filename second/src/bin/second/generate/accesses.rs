//! Instructions of loads and stores, each access good or bad as planned.

use super::draft::{Draft, Part, CALL, NOP, STOP};
use super::random::Random;
use crate::generate::states;
use second::state::{Cell, State};
use second::values;

/// What an access is to be.
#[derive(Clone, Copy, PartialEq, Eq)]
enum Plan {
    Good,
    /// The last access that still fits.
    Last,
    Misaligned,
    Beyond,
    MisalignedBeyond,
    /// Next to an access before it, not sharing a byte.
    Beside,
    /// Sharing a byte with an access before it.
    Sharing,
}

/// A table with room, a program with one planned instruction, and a state that holds its addresses.
pub struct Planned {
    pub table: Vec<u8>,
    pub draft: Draft,
    pub state: State,
}

/// The first register that holds a planned address; its neighbours hold the next ones.
const FIRST_BASE: u32 = 40;

pub fn planned(random: &mut Random, memory: usize) -> Planned {
    let c = random.between(1, 4) as usize;
    let mut table = vec![c as u8];
    for _ in 0..c {
        table.extend([8, 8, 4, random.between(2, 4) as u8, 4]);
    }
    table.extend((0..5).map(|_| random.between(1, 8) as u8));

    let before = random.pick(&[0, 0, 1, 2, 5]);
    let mut state = states::quiet(random, &[0], memory);
    let mut parts = Vec::new();
    let mut accesses = Vec::new();
    let plans = plans(random);
    let opened = random.between(1, c as u32) as usize;
    // Shares out the plans in order, so that an early syllable may be in a later cluster's way.
    for cluster in 0..opened {
        let count = usize::from(table[1 + 5 * cluster + 3]);
        let mine = plans.len() * cluster / opened..plans.len() * (cluster + 1) / opened;
        let mut words = Vec::new();
        for (index, &plan) in plans[mine].iter().take(count).enumerate() {
            words.push(access(random, plan, memory, &mut accesses, &mut state, cluster, index as u32));
        }
        if words.is_empty() || random.percent(20) {
            words.push(NOP);
        }
        // A call besides: if the instruction faults, the link stays.
        if cluster == 0 && random.percent(25) {
            words.insert(random.index(words.len() + 1), CALL);
        }
        parts.extend(words.into_iter().enumerate().map(|(index, word)| Part::new(index == 0, word)));
    }
    if random.percent(15) {
        make_busy(random, &mut state, &parts, before as u8);
    }
    for part in parts.iter_mut().filter(|part| part.has_target()) {
        part.aim = Some(random.index(before as usize + 2));
    }
    let mut draft = Draft::default();
    draft.instructions.extend((0..before).map(|_| vec![Part::new(true, NOP)]));
    draft.instructions.push(parts);
    draft.instructions.push(vec![Part::new(true, STOP)]);
    state.link = states::link(random, &draft.places(), draft.syllables() as u32);
    Planned { table, draft, state }
}

fn plans(random: &mut Random) -> Vec<Plan> {
    use Plan::*;
    let bad = [Misaligned, Beyond, MisalignedBeyond];
    let mut plans = match random.below(12) {
        0 | 1 => vec![Good, Last, Beside, Good],
        2 => vec![random.pick(&bad)],
        3 => vec![Good, random.pick(&bad), Good],
        4 => vec![Misaligned, Beyond],
        5 => vec![Beyond, Misaligned],
        6 => vec![Beyond, Good, MisalignedBeyond],
        7 => vec![random.pick(&bad), random.pick(&bad), random.pick(&bad)],
        8 => vec![Good, Sharing],
        9 => vec![Good, Good, Sharing, Beside],
        10 => vec![Good, Sharing, random.pick(&bad)],
        _ => vec![Last, Beside, Beside, Sharing],
    };
    if random.percent(20) {
        plans.insert(0, Good);
    }
    plans
}

/// One load or store; its address goes into base and offset.
fn access(
    random: &mut Random,
    plan: Plan,
    memory: usize,
    accesses: &mut Vec<(u32, u32)>,
    state: &mut State,
    cluster: usize,
    index: u32,
) -> u32 {
    let sharing = matches!(plan, Plan::Sharing | Plan::Beside);
    let opcode = match plan {
        _ if random.percent(if sharing { 85 } else { 55 }) => random.between(57, 59),
        _ => random.between(52, 56),
    };
    // A byte is never misaligned.
    let needs_more = matches!(plan, Plan::Misaligned | Plan::MisalignedBeyond);
    let opcode = if needs_more { random.pick(&[52, 53, 54, 57, 57, 58]) } else { opcode };
    let size = values::access_size(opcode) as u32;
    let address = address(random, plan, size, memory as u32, accesses);
    accesses.push((address, size));

    let near = address < 2048 || address >= 0u32.wrapping_sub(2048);
    let (base, offset) = if near && random.percent(40) {
        (0, address & 0xFFF)
    } else {
        let base = FIRST_BASE + index;
        let offset = random.below(0x1000);
        state.cells[64 * cluster + base as usize].value = address.wrapping_sub(values::widen_signed(offset, 12));
        (base, offset)
    };
    // Loads name registers of their own, stores any.
    let t = if opcode < 57 { random.pick(&[0, 1 + index, 1 + index]) } else { random.below(FIRST_BASE) };
    opcode << 24 | t << 18 | base << 12 | offset
}

fn address(random: &mut Random, plan: Plan, size: u32, memory: u32, accesses: &[(u32, u32)]) -> u32 {
    let fitting = memory / size;
    let first_beyond = fitting * size;
    let other = if accesses.is_empty() { (0, 4) } else { random.pick(accesses) };
    match plan {
        // Near addresses make sharing likelier.
        Plan::Good if fitting > 0 => {
            let most = random.pick(&[1, 2, 4, 16, 0x1_0000]);
            random.below(fitting.min(most)) * size
        }
        Plan::Last if fitting > 0 => first_beyond - size,
        Plan::Misaligned => random.below(fitting.max(1)) * size + random.between(1, size - 1),
        Plan::MisalignedBeyond => match random.below(3) {
            0 => first_beyond + size + 1,
            1 => 0xFFFF_FFFF,
            _ => random.word() | 0x8000_0001,
        },
        Plan::Beside => match random.below(2) {
            0 => (other.0.wrapping_add(other.1)) / size * size,
            _ => other.0.wrapping_sub(size) / size * size,
        },
        Plan::Sharing => other.0.wrapping_add(random.below(other.1)) / size * size,
        _ => match random.below(4) {
            0 | 1 => first_beyond,
            // The sum with the size would be 0 if it were reduced.
            2 => 0u32.wrapping_sub(size),
            _ => (random.word() | 0x0002_0000) / size * size,
        },
    }
}

/// Some register the planned instruction reads, or its destination, is still busy when it comes.
fn make_busy(random: &mut Random, state: &mut State, parts: &[Part], before: u8) {
    let draft = Draft { instructions: vec![parts.to_vec()] };
    let instruction = &draft.split().instructions[0];
    let named = if random.percent(50) { instruction.reads() } else { instruction.destinations() };
    let named: Vec<_> = named.into_iter().filter(|register| !register.is_register_0()).collect();
    if !named.is_empty() {
        let register = random.pick(&named);
        let busy = (before + random.between(0, 2) as u8).min(7);
        let cell = state.cell_mut(register);
        *cell = Cell { value: cell.value, waiting: 0, busy, landing: 0 };
    }
}
