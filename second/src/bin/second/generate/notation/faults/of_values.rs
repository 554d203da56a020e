//! 20: a value outside the 32-bit range at some step, or outside its field.

use super::super::expressions::{number, of_value};
use super::super::operations::{Op, Part};
use super::super::{Page, Token};
use super::{operation, token, value, Fault};
use crate::generate::random::Random;
use second::assemble::operations::Field;

pub const FAULTS: [Fault; 6] = [outside_its_field, outside_its_field, outside_its_field, step, step, long_number];

fn outside_its_field(random: &mut Random, page: &mut Page, at: usize) {
    let labels = page.labels.clone();
    if let Some(op) = operation(page, at, Op::has_value) {
        for part in &mut op.parts {
            if let Part::Value(field, tokens) = part {
                let value = outside(random, *field);
                *tokens = of_value(random, value, &labels);
            }
        }
    }
}

fn outside(random: &mut Random, field: Field) -> i64 {
    let (least, greatest) = (field.least(), field.greatest());
    random.pick(&[
        least - 1,
        least - 1,
        greatest + 1,
        greatest + 1,
        least - 1000,
        2 * greatest + 1,
        2 * greatest + 2,
        i64::from(i32::MAX),
        i64::from(i32::MIN),
        // Bits that look well once cut to the field.
        i64::from(i32::MIN) + 5,
    ])
}

/// Out of range at one step, and back at the next.
fn step(random: &mut Random, page: &mut Page, at: usize) {
    let steps = [
        "2147483648 - 2147483648",
        "2147483648 * 0",
        "2147483648 - 2147483647",
        "4294967296",
        "4294967297",
        "4294967301 - 4294967296",
        "2147483647 + 1 - 2147483647",
        "2147483647 - 2147483647 + 2147483647 + 2147483647 - 2147483647 - 2147483647",
        "1 + 2147483647 - 2147483647",
        "0 - 2147483647 - 2 + 2147483647",
        "0 - 2147483648 + 2147483647",
        "0 - 2147483647 - 1 - 1 + 2147483647",
        "65536 * 32768 * 0",
        "65536 * 65536",
        "65536 * 65536 + 5",
        "65536 * 32768 - 2147483647",
        "46341 * 46341 - 2147479015",
        "( 0 - 65536 ) * 32769 * 0",
        "( 0 - 65536 ) * 32769 + 2147483647",
        "( 0 - 2147483647 - 1 ) * ( 0 - 1 ) * 0",
        "( 0 - 2147483647 - 1 ) * 2",
        "( 2147483647 + 1 ) * 0",
        "0 * ( 2147483647 + 2147483647 )",
        "2 * 3 * 2147483647 * 0",
        "0 - ( 0 - 2147483647 - 1 ) - 2147483647",
        // In range all the way, at both ends.
        "2147483647 - 2147483647",
        "0 - 2147483647 - 1 + 2147483647 + 1",
        "( 0 - 65536 ) * 32768 + 2147483647 + 1",
        "65535 * 32768 - 65535 * 32768",
        "( 0 - 2147483647 - 1 ) * 1 + 2147483647 + 1",
        "( 0 - 2147483647 - 1 ) * 0",
        "46340 * 46340 - 2147395600",
    ];
    if let Some(tokens) = value(page, at) {
        *tokens = random.pick(&steps).split(' ').map(token).collect();
    }
}

/// However many digits, and zeros before them.
fn long_number(random: &mut Random, page: &mut Page, at: usize) {
    if let Some(tokens) = value(page, at) {
        let long: Token = match random.below(7) {
            0 => number(random, 9_999_999_999),
            1 => token("18446744073709551616"),
            2 => token("18446744073709551621"),
            3 => token("340282366920938463463374607431768211461"),
            4 => token(&"9".repeat(random.pick(&[11, 20, 40, 1000]))),
            5 => token(&format!("{}5", "0".repeat(random.pick(&[11, 20, 40, 1000])))),
            _ => token(&format!("1{}", "0".repeat(random.pick(&[10, 16, 32, 64, 400])))),
        };
        if random.percent(50) {
            *tokens = vec![long];
        } else {
            tokens.extend([token("+"), token("0"), token("*"), long]);
        }
    }
}
