//! The state: each register holds its value, a waiting value, busy and landing.

use crate::load::IMAGE_SIZE;
use crate::program::Program;
use crate::syllable::Register;

pub const REGISTERS: usize = 256 + 32;

#[derive(Clone, Copy, Debug, Default, PartialEq, Eq)]
pub struct Cell {
    pub value: u32,
    pub waiting: u32,
    pub busy: u8,
    pub landing: u8,
}

impl Cell {
    /// The end of a later instruction: busy and landing above 0 fall by one.
    pub fn fall(&mut self) {
        if self.busy > 0 {
            self.busy -= 1;
        }
        if self.landing > 0 {
            self.landing -= 1;
            if self.landing == 0 {
                self.value = self.waiting;
                self.waiting = 0;
            }
        }
    }

    /// Lands whatever is on its way and zeroes busy.
    pub fn land(&mut self) {
        if self.landing > 0 {
            self.value = self.waiting;
        }
        self.waiting = 0;
        self.busy = 0;
        self.landing = 0;
    }
}

#[derive(Clone, Debug, PartialEq, Eq)]
pub struct State {
    pub place: u32,
    /// The 256 general registers by cluster, then the 32 branch registers by cluster.
    pub cells: [Cell; REGISTERS],
    /// The link register: where a return goes; any 32 bits are valid.
    pub link: u32,
}

/// Where a register stands among the cells.
pub fn index(register: Register) -> usize {
    match register {
        Register::General { cluster, number } => (cluster * 64 + number) as usize,
        Register::Branch { cluster, number } => 256 + (cluster * 8 + number) as usize,
    }
}

impl State {
    /// Place 0, all zero.
    pub fn zero() -> State {
        State { place: 0, cells: [Cell::default(); REGISTERS], link: 0 }
    }

    pub fn cell(&self, register: Register) -> Cell {
        self.cells[index(register)]
    }

    pub fn cell_mut(&mut self, register: Register) -> &mut Cell {
        &mut self.cells[index(register)]
    }

    pub fn land_everything(&mut self) {
        for cell in &mut self.cells {
            cell.land();
        }
    }

    /// Reads an image of 2,888 bytes: the place, each cell's value, waiting, busy, landing, and the link register.
    pub fn from_image(image: &[u8]) -> State {
        assert_eq!(image.len(), IMAGE_SIZE);
        let word = |at: usize| u32::from_be_bytes([image[at], image[at + 1], image[at + 2], image[at + 3]]);
        let mut state = State::zero();
        state.place = word(0);
        state.link = word(IMAGE_SIZE - 4);
        for (number, cell) in state.cells.iter_mut().enumerate() {
            let at = 4 + 10 * number;
            *cell = Cell { value: word(at), waiting: word(at + 4), busy: image[at + 8], landing: image[at + 9] };
        }
        state
    }

    pub fn image(&self) -> Vec<u8> {
        let mut image = self.place.to_be_bytes().to_vec();
        for cell in &self.cells {
            image.extend(cell.value.to_be_bytes());
            image.extend(cell.waiting.to_be_bytes());
            image.extend([cell.busy, cell.landing]);
        }
        image.extend(self.link.to_be_bytes());
        image
    }

    /// Names the rule a state breaks, if it is not valid.
    pub fn broken_rule(&self, program: &Program) -> Option<&'static str> {
        if program.starting_at(self.place).is_none() {
            return Some("place starts no instruction");
        }
        for (number, cell) in self.cells.iter().enumerate() {
            let is_branch = number >= 256;
            let is_register_0 = !is_branch && number % 64 == 0;
            if is_register_0 && *cell != Cell::default() {
                return Some("register 0 not all zero");
            }
            if cell.landing > cell.busy {
                return Some("landing above busy");
            }
            if cell.busy > 7 {
                return Some("busy above 7");
            }
            if cell.landing == 0 && cell.waiting != 0 {
                return Some("waiting without landing");
            }
            if is_branch && cell.value > 1 {
                return Some("branch value above 1");
            }
            if is_branch && cell.waiting > 1 {
                return Some("branch waiting value above 1");
            }
        }
        None
    }
}

#[cfg(test)]
mod tests {
    use super::*;

    #[test]
    fn image_and_back() {
        let mut state = State::zero();
        state.place = 0x0102_0304;
        *state.cell_mut(Register::General { cluster: 0, number: 1 }) =
            Cell { value: 5, waiting: 6, busy: 7, landing: 3 };
        *state.cell_mut(Register::Branch { cluster: 3, number: 7 }) =
            Cell { value: 1, waiting: 0, busy: 2, landing: 0 };
        state.link = 0xF1F2_F3F4;
        let image = state.image();
        assert_eq!(image.len(), 2888);
        assert_eq!(image[..24], [1, 2, 3, 4, 0, 0, 0, 0, 0, 0, 0, 0, 0, 0, 0, 0, 0, 5, 0, 0, 0, 6, 7, 3]);
        assert_eq!(image[2874..], [0, 0, 0, 1, 0, 0, 0, 0, 2, 0, 0xF1, 0xF2, 0xF3, 0xF4]);
        assert_eq!(State::from_image(&image), state);
    }

    #[test]
    fn falling() {
        let mut cell = Cell { value: 1, waiting: 9, busy: 3, landing: 2 };
        cell.fall();
        assert_eq!(cell, Cell { value: 1, waiting: 9, busy: 2, landing: 1 });
        cell.fall();
        assert_eq!(cell, Cell { value: 9, waiting: 0, busy: 1, landing: 0 });
        cell.fall();
        assert_eq!(cell, Cell { value: 9, waiting: 0, busy: 0, landing: 0 });
        cell.fall();
        assert_eq!(cell, Cell { value: 9, waiting: 0, busy: 0, landing: 0 });
    }
}
