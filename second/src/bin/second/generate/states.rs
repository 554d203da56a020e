//! States: valid ones, quiet or with results in flight, and damaged ones.

use super::build::FIRST_POINTER;
use super::pairs::{self, EDGES};
use super::random::Random;
use second::state::{Cell, State, REGISTERS};

/// A valid state with nothing in flight; the last registers hold addresses in memory.
pub fn quiet(random: &mut Random, starts: &[u32], memory: usize) -> State {
    let mut state = State::zero();
    if random.percent(25) {
        state.place = random.pick(starts);
    }
    let zeros = random.pick(&[10, 40, 90]);
    for (index, cell) in state.cells.iter_mut().enumerate() {
        let number = index as u32 % 64;
        cell.value = match index {
            256.. => random.below(2),
            _ if number == 0 => 0,
            _ if number >= FIRST_POINTER => random.below(memory as u32 / 4 + 1) * 4,
            _ if random.percent(zeros) => 0,
            _ => value(random),
        };
    }
    state
}

/// A link of any kind: 0, an instruction's first syllable, inside an instruction, at the program's end and beyond it.
pub fn link(random: &mut Random, starts: &[u32], end: u32) -> u32 {
    match random.below(20) {
        0..=4 => 0,
        5..=11 => random.pick(starts),
        12..=14 => {
            let inside: Vec<u32> = (0..end).filter(|place| !starts.contains(place)).collect();
            if inside.is_empty() {
                end
            } else {
                random.pick(&inside)
            }
        }
        15 => end,
        16 => end + 1,
        17 => u32::MAX,
        // Its low bits may look like a good one.
        18 => random.pick(starts) | 1 << random.between(12, 31),
        _ => random.word(),
    }
}

fn value(random: &mut Random) -> u32 {
    match random.below(9) {
        0 | 1 => random.below(64),
        2 | 3 => random.pick(&EDGES),
        // Sums come near 2^32, where a carry in decides.
        4 => 0u32.wrapping_sub(random.between(1, 3)),
        _ => pairs::word(random),
    }
}

/// Sends some results on their way, within what a valid state may hold.
pub fn send(random: &mut Random, state: &mut State) {
    let registers = random.pick(&[1, 3, 10, 60]);
    for _ in 0..registers {
        let index = any_register(random);
        let busy = random.between(1, 7) as u8;
        let landing = if random.percent(35) { 0 } else { random.between(1, u32::from(busy)) as u8 };
        let waiting = match (landing, index) {
            (0, _) => 0,
            (_, 256..) => random.below(2),
            _ => value(random),
        };
        let cell = &mut state.cells[index];
        *cell = Cell { value: cell.value, waiting, busy, landing };
    }
}

/// Any register but register 0; low numbers, which programs name, more often.
pub fn any_register(random: &mut Random) -> usize {
    let cluster = random.index(4);
    if random.percent(25) {
        return 256 + 8 * cluster + random.index(8);
    }
    let most = random.pick(&[8, 24, 63]);
    64 * cluster + random.between(1, most) as usize
}

/// Ways to make a valid state not valid, one for each rule.
pub const DAMAGES: [fn(&mut Random, &mut State, &[u32]); 14] = [
    |random, state, starts| {
        // A place inside an instruction, if there is one.
        let last = starts[starts.len() - 1];
        let inside: Vec<u32> = (0..last).filter(|place| !starts.contains(place)).collect();
        state.place = if inside.is_empty() { last + 1 } else { random.pick(&inside) };
    },
    |random, state, starts| state.place = starts[starts.len() - 1] + random.between(1, 3),
    |random, state, _| state.place = random.pick(&[4096, 0x1_0000, 0x8000_0000, u32::MAX]),
    |random, state, _| state.cells[64 * random.index(4)].value = random.pick(&[1, 0x8000_0000, 0x100]),
    |random, state, _| state.cells[64 * random.index(4)].busy = random.between(1, 7) as u8,
    |random, state, _| {
        state.cells[64 * random.index(4)] = Cell { value: 0, waiting: random.below(2), busy: 3, landing: 2 }
    },
    |random, state, _| state.cells[64 * random.index(4)].waiting = 1,
    |random, state, _| {
        let busy = random.between(0, 6) as u8;
        state.cells[any_register(random)] = Cell { value: 0, waiting: 0, busy, landing: busy + 1 };
    },
    |random, state, _| {
        let landing = random.pick(&[8, 128, 255]);
        state.cells[any_register(random)] = Cell { value: 0, waiting: 0, busy: 7, landing };
    },
    |random, state, _| {
        let busy = random.pick(&[8, 8, 9, 128, 255]);
        let landing = random.pick(&[0, 1, 7, 8]);
        state.cells[any_register(random)] = Cell { value: 0, waiting: 0, busy, landing };
    },
    |random, state, _| {
        let (waiting, busy) = (random.pick(&[1, 1, 0x100, 0x8000_0000]), random.below(8) as u8);
        state.cells[any_register(random)] = Cell { value: 1, waiting, busy, landing: 0 };
    },
    |random, state, _| {
        let value = random.pick(&[2, 3, 0x100, 0x8000_0000, 0xFFFF_FFFF]);
        state.cells[256 + random.index(32)].value = value;
    },
    |random, state, _| {
        let waiting = random.pick(&[2, 3, 0x100, 0x8000_0001]);
        state.cells[256 + random.index(32)] = Cell { value: 1, waiting, busy: 4, landing: 2 };
    },
    |random, state, _| {
        // Any byte of any register; now and then still valid.
        let cell = &mut state.cells[random.index(REGISTERS)];
        match random.below(4) {
            0 => cell.value ^= 1 << random.below(32),
            1 => cell.waiting ^= 1 << random.below(32),
            2 => cell.busy ^= 1 << random.below(8),
            _ => cell.landing ^= 1 << random.below(8),
        }
    },
];
