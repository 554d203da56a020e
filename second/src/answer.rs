//! Numbers that leave the machine: the answer and the refusal.

/// What the answer room gets: number, count, place, 4 bytes each.
#[derive(Clone, Copy, Debug, PartialEq, Eq)]
pub struct Answer {
    pub number: u32,
    pub count: u32,
    pub place: u32,
}

impl Answer {
    pub const GOOD: Answer = Answer { number: 0, count: 0, place: 0 };

    /// A room not of 12 bytes is never written, under any number.
    pub fn write_to(self, room: &mut [u8]) {
        if room.len() == 12 {
            room[0..4].copy_from_slice(&self.number.to_be_bytes());
            room[4..8].copy_from_slice(&self.count.to_be_bytes());
            room[8..12].copy_from_slice(&self.place.to_be_bytes());
        }
    }
}

/// A refusal that executes nothing; the cause says which of the number's cases it was.
#[derive(Clone, Copy, Debug, PartialEq, Eq)]
pub struct Refusal {
    pub number: u32,
    pub place: u32,
    pub cause: &'static str,
}

impl Refusal {
    pub fn new(number: u32, place: u32, cause: &'static str) -> Refusal {
        Refusal { number, place, cause }
    }

    /// Refusals that execute nothing have count 0.
    pub fn answer(self) -> Answer {
        Answer { number: self.number, count: 0, place: self.place }
    }
}
