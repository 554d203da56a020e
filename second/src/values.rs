//! The operations' values. All register arithmetic is modulo 2^32; signed means two's complement.

/// The value of the operation with this opcode, b being 0 or 1; 0 for opcodes that have no value.
pub fn value(opcode: u32, s1: u32, s2: u32, b: u32) -> u32 {
    match opcode {
        1 => modulo(unsigned(s1) + unsigned(s2)),
        // sub is s2 minus s1, not the other way round.
        2 => modulo(unsigned(s2) - unsigned(s1)),
        3 => s1 & s2,
        4 => !s1 & s2,
        5 => s1 | s2,
        6 => !s1 | s2,
        7 => s1 ^ s2,
        8 => modulo(unsigned(s1) << shift_amount(s2)),
        9 => modulo(signed(s1) >> shift_amount(s2)),
        10 => modulo(unsigned(s1) >> shift_amount(s2)),
        11..=14 => modulo((unsigned(s1) << (opcode - 10)) + unsigned(s2)),
        15 => modulo(signed(s1).max(signed(s2))),
        16 => modulo(unsigned(s1).max(unsigned(s2))),
        17 => modulo(signed(s1).min(signed(s2))),
        18 => modulo(unsigned(s1).min(unsigned(s2))),
        19 => widen_signed(s1, 8),
        20 => widen_signed(s1, 16),
        21 => s1 % 0x100,
        22 => s1 % 0x1_0000,
        23 => modulo(addcg_sum(s1, s2, b)),
        24 => modulo(signed_half(low(s1)) * signed_half(low(s2))),
        25 => modulo(unsigned(low(s1)) * unsigned(low(s2))),
        26 => modulo(signed_half(low(s1)) * signed_half(high(s2))),
        27 => modulo(unsigned(low(s1)) * unsigned(high(s2))),
        28 => modulo(signed_half(high(s1)) * signed_half(high(s2))),
        29 => modulo(unsigned(high(s1)) * unsigned(high(s2))),
        30..=39 => comparison(opcode - 30, s1, s2),
        40..=49 => comparison(opcode - 40, s1, s2),
        50 => {
            if b == 1 {
                s1
            } else {
                s2
            }
        }
        51 => {
            if b == 1 {
                s2
            } else {
                s1
            }
        }
        _ => 0,
    }
}

/// The carry that addcg gives its branch destination.
pub fn carry(s1: u32, s2: u32, b: u32) -> u32 {
    if addcg_sum(s1, s2, b) >= 1 << 32 {
        1
    } else {
        0
    }
}

/// The address of a load or store: s1 plus the signed 12 bits, modulo 2^32.
pub fn address(s1: u32, offset: u32) -> u32 {
    modulo(unsigned(s1) + signed(widen_signed(offset, 12)))
}

/// How many bytes a load or store touches.
pub fn access_size(opcode: u32) -> usize {
    match opcode {
        52 | 57 => 4,
        53 | 54 | 58 => 2,
        55 | 56 | 59 => 1,
        _ => panic!("opcode {opcode} is no load or store"),
    }
}

/// What a load makes of the bytes at its address; short ones are widened by sign unless u.
pub fn loaded(opcode: u32, bytes: &[u8]) -> u32 {
    let number = bytes.iter().fold(0u32, |sum, &byte| sum * 256 + u32::from(byte));
    match opcode {
        53 => widen_signed(number, 16),
        55 => widen_signed(number, 8),
        _ => number,
    }
}

/// The bytes a store leaves at its address; short ones keep the low bytes.
pub fn stored(opcode: u32, value: u32) -> Vec<u8> {
    value.to_be_bytes()[4 - access_size(opcode)..].to_vec()
}

/// The low `width` bits of a number, widened by their sign.
pub fn widen_signed(number: u32, width: u32) -> u32 {
    let field = unsigned(number) % (1 << width);
    if field >= 1 << (width - 1) {
        modulo(field - (1 << width))
    } else {
        modulo(field)
    }
}

/// cmpeq, ne, lt, le, gt, ge, ltu, leu, gtu, geu, counted from 0: 1 or 0.
fn comparison(which: u32, s1: u32, s2: u32) -> u32 {
    let holds = match which {
        0 => s1 == s2,
        1 => s1 != s2,
        2 => signed(s1) < signed(s2),
        3 => signed(s1) <= signed(s2),
        4 => signed(s1) > signed(s2),
        5 => signed(s1) >= signed(s2),
        6 => unsigned(s1) < unsigned(s2),
        7 => unsigned(s1) <= unsigned(s2),
        8 => unsigned(s1) > unsigned(s2),
        9 => unsigned(s1) >= unsigned(s2),
        _ => panic!("no comparison {which}"),
    };
    if holds {
        1
    } else {
        0
    }
}

fn addcg_sum(s1: u32, s2: u32, b: u32) -> i64 {
    unsigned(s1) + unsigned(s2) + unsigned(b)
}

fn shift_amount(s2: u32) -> u32 {
    s2 % 32
}

fn low(word: u32) -> u32 {
    word % 0x1_0000
}

fn high(word: u32) -> u32 {
    word / 0x1_0000
}

fn signed_half(half: u32) -> i64 {
    signed(widen_signed(half, 16))
}

fn unsigned(word: u32) -> i64 {
    i64::from(word)
}

fn signed(word: u32) -> i64 {
    if word >= 0x8000_0000 {
        i64::from(word) - (1 << 32)
    } else {
        i64::from(word)
    }
}

fn modulo(number: i64) -> u32 {
    number.rem_euclid(1 << 32) as u32
}

#[cfg(test)]
mod tests {
    use super::*;

    const MINUS_1: u32 = 0xFFFF_FFFF;

    #[test]
    fn checked_values() {
        assert_eq!(value(1, MINUS_1, 1, 0), 0);
        assert_eq!(value(2, 1, 0, 0), MINUS_1);
        assert_eq!(value(4, 0xF0F0, 0xFFFF, 0), 0x0F0F);
        assert_eq!(value(24, 0x8000, 0x8000, 0), 0x4000_0000);
        assert_eq!(value(27, 0xFFFF, 0xFFFF_0000, 0), 0xFFFE_0001);
        assert_eq!(value(9, 0x8000_0000, 0x1F, 0), MINUS_1);
        assert_eq!(value(8, 1, 0x20, 0), 1);
        assert_eq!(value(23, MINUS_1, 0, 1), 0);
        assert_eq!(carry(MINUS_1, 0, 1), 1);
        assert_eq!(value(14, 0x1000_0001, 2, 0), 0x12);
        assert_eq!(value(16, 0, widen_signed(0x7FF, 11), 0), MINUS_1);
    }

    #[test]
    fn logic() {
        assert_eq!(value(3, 0b1100, 0b1010, 0), 0b1000);
        assert_eq!(value(5, 0b1100, 0b1010, 0), 0b1110);
        assert_eq!(value(6, 0xFFFF_FFF3, 0b1010, 0), 0b1110);
        assert_eq!(value(7, 0b1100, 0b1010, 0), 0b0110);
    }

    #[test]
    fn shifts_take_five_bits() {
        assert_eq!(value(8, 0x8000_0001, 1, 0), 2);
        assert_eq!(value(9, 0x8000_0000, 0x21, 0), 0xC000_0000);
        assert_eq!(value(10, 0x8000_0000, 0x1F, 0), 1);
        assert_eq!(value(10, 0x8000_0000, MINUS_1, 0), 1);
    }

    #[test]
    fn greatest_and_least() {
        assert_eq!(value(15, MINUS_1, 1, 0), 1);
        assert_eq!(value(16, MINUS_1, 1, 0), MINUS_1);
        assert_eq!(value(17, MINUS_1, 1, 0), MINUS_1);
        assert_eq!(value(18, MINUS_1, 1, 0), 1);
    }

    #[test]
    fn widening() {
        assert_eq!(value(19, 0x1234_5680, 0, 0), 0xFFFF_FF80);
        assert_eq!(value(20, 0x1234_8000, 0, 0), 0xFFFF_8000);
        assert_eq!(value(21, 0x1234_5680, 0, 0), 0x80);
        assert_eq!(value(22, 0x1234_8000, 0, 0), 0x8000);
        assert_eq!(widen_signed(0x400, 11), 0xFFFF_FC00);
        assert_eq!(widen_signed(0x3FF, 11), 1023);
    }

    #[test]
    fn multiplication_takes_halves() {
        assert_eq!(value(24, 0x0001_FFFF, 0x0001_0002, 0), 0xFFFF_FFFE);
        assert_eq!(value(25, 0x0001_FFFF, 0x0001_0002, 0), 0x0001_FFFE);
        assert_eq!(value(26, 0x0007_0002, 0xFFFF_0009, 0), 0xFFFF_FFFE);
        assert_eq!(value(28, 0xFFFF_0000, 0xFFFF_0000, 0), 1);
        assert_eq!(value(29, 0xFFFF_0000, 0xFFFF_0000, 0), 0xFFFE_0001);
    }

    #[test]
    fn comparisons_in_the_order_of_the_table() {
        // -1 against 1: unequal, signed less, unsigned greater.
        let expected = [0, 1, 1, 1, 0, 0, 0, 0, 1, 1];
        for (which, &holds) in expected.iter().enumerate() {
            assert_eq!(value(30 + which as u32, MINUS_1, 1, 0), holds);
            assert_eq!(value(40 + which as u32, MINUS_1, 1, 0), holds);
        }
        let equal = [1, 0, 0, 1, 0, 1, 0, 1, 0, 1];
        for (which, &holds) in equal.iter().enumerate() {
            assert_eq!(value(30 + which as u32, 7, 7, 0), holds);
        }
    }

    #[test]
    fn selection() {
        assert_eq!(value(50, 5, 6, 1), 5);
        assert_eq!(value(50, 5, 6, 0), 6);
        assert_eq!(value(51, 5, 6, 1), 6);
        assert_eq!(value(51, 5, 6, 0), 5);
    }

    #[test]
    fn addresses_wrap() {
        assert_eq!(address(4, 0xFFC), 0);
        assert_eq!(address(0, 0xFFC), 0xFFFF_FFFC);
        assert_eq!(address(0xFFFF_FFF0, 0x7FF), 0x7EF);
        assert_eq!(address(0x1000, 0x800), 0x800);
    }

    #[test]
    fn loads_and_stores_are_big_endian() {
        assert_eq!(loaded(52, &[0x80, 1, 2, 3]), 0x8001_0203);
        assert_eq!(loaded(53, &[0x80, 1]), 0xFFFF_8001);
        assert_eq!(loaded(54, &[0x80, 1]), 0x8001);
        assert_eq!(loaded(55, &[0x80]), 0xFFFF_FF80);
        assert_eq!(loaded(56, &[0x80]), 0x80);
        assert_eq!(stored(57, 0x0102_0304), [1, 2, 3, 4]);
        assert_eq!(stored(58, 0x0102_0304), [3, 4]);
        assert_eq!(stored(59, 0x0102_0304), [4]);
    }
}
