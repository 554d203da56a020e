//! Syllables: 32 bits, decoded by their opcode.

use crate::table::Table;
use crate::values;

#[derive(Clone, Copy, Debug, PartialEq, Eq)]
pub struct Syllable(pub u32);

#[derive(Clone, Copy, Debug, PartialEq, Eq)]
pub enum Class {
    Nop,
    Alu,
    Mul,
    Mem,
    Copy,
    Control,
}

#[derive(Clone, Copy, Debug, PartialEq, Eq)]
pub enum Register {
    General { cluster: u32, number: u32 },
    Branch { cluster: u32, number: u32 },
}

impl Register {
    /// All 288, those of clusters the table has not as well: general then branch registers by cluster.
    pub const ALL: [Register; 288] = {
        let mut all = [Register::General { cluster: 0, number: 0 }; 288];
        let mut index = 0;
        while index < 288 {
            let at = index as u32;
            all[index] = if at < 256 {
                Register::General { cluster: at / 64, number: at % 64 }
            } else {
                Register::Branch { cluster: (at - 256) / 8, number: at % 8 }
            };
            index += 1;
        }
        all
    };

    /// "Register 0" always means the general one; branch register 0 is ordinary.
    pub fn is_register_0(self) -> bool {
        matches!(self, Register::General { number: 0, .. })
    }
}

impl Syllable {
    pub fn bits(self, high: u32, low: u32) -> u32 {
        ((u64::from(self.0) >> low) % (1 << (high - low + 1))) as u32
    }

    pub fn ends_instruction(self) -> bool {
        self.bits(31, 31) == 1
    }

    pub fn starts_cluster(self) -> bool {
        self.bits(30, 30) == 1
    }

    pub fn opcode(self) -> u32 {
        self.bits(29, 24)
    }

    pub fn is_stop(self) -> bool {
        self.opcode() == 0 && self.bits(23, 18) == 1
    }

    pub fn is_call(self) -> bool {
        self.opcode() == 0 && self.bits(23, 18) == 2
    }

    pub fn is_return(self) -> bool {
        self.opcode() == 0 && self.bits(23, 18) == 3
    }

    pub fn is_goto(self) -> bool {
        self.opcode() == 61
    }

    pub fn class(self) -> Class {
        match self.opcode() {
            0 => {
                if self.is_stop() || self.is_call() || self.is_return() {
                    Class::Control
                } else {
                    Class::Nop
                }
            }
            1..=23 | 30..=51 => Class::Alu,
            24..=29 => Class::Mul,
            52..=59 => Class::Mem,
            60 => Class::Copy,
            _ => Class::Control,
        }
    }

    /// Refusal 4: names the break, if bits 23..18 of opcode 0 are above 3 or a bit not named is set.
    pub fn stray_bits(self) -> Option<&'static str> {
        let opcode = self.opcode();
        if opcode == 0 && self.bits(23, 18) > 3 {
            return Some("bits 23..18 above 3");
        }
        // A call has its target there.
        if opcode == 0 && !self.is_call() && self.bits(17, 0) != 0 {
            return Some("bits 17..0");
        }
        if matches!(opcode, 40..=49) && self.bits(23, 21) != 0 {
            return Some("bits 23..21");
        }
        if self.may_have_immediate() && !self.has_immediate() && self.bits(10, 6) != 0 {
            return Some("bits 10..6");
        }
        if matches!(opcode, 19..=22) && self.bits(11, 0) != 0 {
            return Some("bits 11..0");
        }
        if matches!(opcode, 50 | 51) && self.bits(8, 6) != 0 {
            return Some("bits 8..6");
        }
        if opcode == 60 && self.bits(11, 2) != 0 {
            return Some("bits 11..2");
        }
        None
    }

    fn may_have_immediate(self) -> bool {
        matches!(self.opcode(), 1..=18 | 24..=49)
    }

    /// Bit 11 chooses the immediate only for 1-18 and 24-49; elsewhere it belongs to another field.
    pub fn has_immediate(self) -> bool {
        self.may_have_immediate() && self.bits(11, 11) == 1
    }

    pub fn immediate(self) -> u32 {
        values::widen_signed(self.bits(10, 0), 11)
    }

    pub fn offset(self) -> u32 {
        self.bits(11, 0)
    }

    pub fn is_load(self) -> bool {
        matches!(self.opcode(), 52..=56)
    }

    pub fn is_store(self) -> bool {
        matches!(self.opcode(), 57..=59)
    }

    /// The cluster a copy takes its value from.
    pub fn copy_source(self) -> u32 {
        self.bits(1, 0)
    }

    /// The syllable index that call, goto, br or brf names.
    pub fn target(self) -> Option<u32> {
        match self.opcode() {
            0 if self.is_call() => Some(self.bits(17, 0)),
            61 => Some(self.bits(23, 0)),
            62 | 63 => Some(self.bits(20, 0)),
            _ => None,
        }
    }

    /// The general register in bits 17..12; a copy reads it in the cluster it copies from.
    pub fn s1(self, cluster: u32) -> Option<Register> {
        match self.opcode() {
            1..=59 => Some(Register::General { cluster, number: self.bits(17, 12) }),
            60 => Some(Register::General { cluster: self.copy_source(), number: self.bits(17, 12) }),
            _ => None,
        }
    }

    /// The general register in bits 5..0, where s2 is one.
    pub fn s2(self, cluster: u32) -> Option<Register> {
        let is_register = match self.opcode() {
            23 | 50 | 51 => true,
            _ => self.may_have_immediate() && !self.has_immediate(),
        };
        is_register.then(|| Register::General { cluster, number: self.bits(5, 0) })
    }

    /// The branch register that is read.
    pub fn b(self, cluster: u32) -> Option<Register> {
        match self.opcode() {
            23 | 50 | 51 => Some(Register::Branch { cluster, number: self.bits(11, 9) }),
            62 | 63 => Some(Register::Branch { cluster, number: self.bits(23, 21) }),
            _ => None,
        }
    }

    /// The general register a store takes its bytes from.
    pub fn stored(self, cluster: u32) -> Option<Register> {
        self.is_store().then(|| Register::General { cluster, number: self.bits(23, 18) })
    }

    /// Every register the syllable reads, whatever the values are; call and return are taken to read every register.
    pub fn reads(self, cluster: u32) -> Vec<Register> {
        if self.is_call() || self.is_return() {
            return Register::ALL.to_vec();
        }
        [self.s1(cluster), self.s2(cluster), self.b(cluster), self.stored(cluster)].into_iter().flatten().collect()
    }

    /// The destinations, addcg's general one before its branch one; register 0 is none.
    pub fn destinations(self, cluster: u32) -> Vec<Register> {
        let t = Register::General { cluster, number: self.bits(23, 18) };
        let named = match self.opcode() {
            23 => vec![t, Register::Branch { cluster, number: self.bits(8, 6) }],
            40..=49 => vec![Register::Branch { cluster, number: self.bits(20, 18) }],
            1..=39 | 50..=56 | 60 => vec![t],
            _ => vec![],
        };
        named.into_iter().filter(|register| !register.is_register_0()).collect()
    }

    /// The delay of a result: by class, but every branch register result has CMPB.
    pub fn delay(self, destination: Register, table: &Table) -> u32 {
        if matches!(destination, Register::Branch { .. }) {
            return table.cmpb_delay;
        }
        match self.class() {
            Class::Alu => table.alu_delay,
            Class::Mul => table.mul_delay,
            Class::Mem => table.load_delay,
            Class::Copy => table.copy_delay,
            Class::Nop | Class::Control => panic!("no result has this class"),
        }
    }
}

#[cfg(test)]
mod tests {
    use super::*;

    fn general(cluster: u32, number: u32) -> Register {
        Register::General { cluster, number }
    }

    fn branch(cluster: u32, number: u32) -> Register {
        Register::Branch { cluster, number }
    }

    #[test]
    fn first_syllable_of_the_text_example() {
        let add = Syllable(0xC10C_0805);
        assert!(add.ends_instruction() && add.starts_cluster());
        assert_eq!((add.opcode(), add.class()), (1, Class::Alu));
        assert_eq!(add.destinations(0), [general(0, 3)]);
        assert_eq!(add.reads(0), [general(0, 0)]);
        assert_eq!(add.immediate(), 5);
        assert_eq!(add.stray_bits(), None);
        assert!(Syllable(0xC004_0000).is_stop());
    }

    #[test]
    fn addcg_names_two_destinations_and_three_sources() {
        // t 5, s1 6, b 7, branch destination 3, s2 9.
        let addcg = Syllable(23 << 24 | 5 << 18 | 6 << 12 | 7 << 9 | 3 << 6 | 9);
        assert_eq!(addcg.reads(2), [general(2, 6), general(2, 9), branch(2, 7)]);
        assert_eq!(addcg.destinations(2), [general(2, 5), branch(2, 3)]);
        let to_register_0 = Syllable(23 << 24);
        assert_eq!(to_register_0.destinations(1), [branch(1, 0)]);
    }

    #[test]
    fn copy_reads_the_other_cluster() {
        let copy = Syllable(60 << 24 | 4 << 18 | 3 << 12 | 2);
        assert_eq!(copy.reads(1), [general(2, 3)]);
        assert_eq!(copy.destinations(1), [general(1, 4)]);
    }

    #[test]
    fn store_reads_and_has_no_destination() {
        let store = Syllable(58 << 24 | 4 << 18 | 3 << 12 | 0xFFE);
        assert_eq!(store.reads(0), [general(0, 3), general(0, 4)]);
        assert_eq!(store.destinations(0), []);
        assert_eq!(store.offset(), 0xFFE);
    }

    #[test]
    fn branches() {
        let br = Syllable(62 << 24 | 5 << 21 | 0x1F_FFFF);
        assert_eq!(br.reads(0), [branch(0, 5)]);
        assert_eq!(br.target(), Some(0x1F_FFFF));
        assert_eq!(Syllable(61 << 24 | 0xFF_FFFF).target(), Some(0xFF_FFFF));
        let compare = Syllable(40 << 24 | 6 << 18 | 1 << 12 | 2);
        assert_eq!(compare.destinations(3), [branch(3, 6)]);
        assert_eq!(compare.reads(3), [general(3, 1), general(3, 2)]);
    }

    #[test]
    fn call_and_return() {
        // Opcode 0 with 2 in bits 23..18 and all ones below, and with 3.
        let (call, back) = (Syllable(0x000B_FFFF), Syllable(0x000C_0000));
        assert!(call.is_call() && !call.is_return() && !call.is_stop());
        assert!(back.is_return() && !back.is_call() && !back.is_stop());
        assert_eq!((call.class(), back.class()), (Class::Control, Class::Control));
        assert_eq!((call.target(), back.target()), (Some(0x3_FFFF), None));
        assert_eq!((call.stray_bits(), back.stray_bits()), (None, None));
        assert_eq!((call.destinations(0), back.destinations(0)), (vec![], vec![]));
        // The same bits under another opcode are neither.
        assert!(!Syllable(0x010B_FFFF).is_call() && !Syllable(0x010C_0000).is_return());
    }

    #[test]
    fn call_and_return_read_every_register() {
        for syllable in [Syllable(0x0008_0000), Syllable(0x000C_0000)] {
            let reads = syllable.reads(0);
            assert_eq!(reads.len(), 288);
            for cluster in 0..4 {
                assert!((0..64).all(|number| reads.contains(&general(cluster, number))));
                assert!((0..8).all(|number| reads.contains(&branch(cluster, number))));
            }
        }
        assert_eq!(Syllable(0x0000_0000).reads(0), []);
        assert_eq!(Syllable(0x0004_0000).reads(0), []);
    }

    #[test]
    fn stray_bits_by_the_number_of_opcode_0() {
        for number in 0..64u32 {
            let with = |bits: u32| Syllable(number << 18 | bits).stray_bits().is_some();
            assert_eq!(with(0), number > 3, "{number}");
            for bit in 0..18 {
                // Of the four only call has a field there.
                assert_eq!(with(1 << bit), number != 2, "{number} {bit}");
            }
        }
    }

    #[test]
    fn stray_bits_opcode_by_opcode() {
        // For each opcode the bits that must be zero with bit 11 clear, and those with bit 11 set.
        for opcode in 1..64u32 {
            let (clear, set): (u32, u32) = match opcode {
                1..=18 | 24..=39 => (0x7C0, 0),
                19..=22 => (0xFFF, 0xFFF),
                40..=49 => (0xE0_07C0, 0xE0_0000),
                50 | 51 => (0x1C0, 0x1C0),
                60 => (0xFFC, 0xFFC),
                _ => (0, 0),
            };
            for bit in 0..24 {
                let one = Syllable(opcode << 24 | 1 << bit);
                if bit != 11 {
                    assert_eq!(one.stray_bits().is_some(), clear >> bit & 1 == 1, "{opcode} {bit}");
                }
                let with_11 = Syllable(opcode << 24 | 1 << bit | 1 << 11);
                let expected = set >> bit & 1 == 1 || set >> 11 & 1 == 1;
                assert_eq!(with_11.stray_bits().is_some(), expected, "{opcode} {bit} and 11");
            }
        }
    }
}
