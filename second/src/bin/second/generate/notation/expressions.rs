//! Expressions that have a given value.

use super::super::random::Random;
use super::Token;
use second::assemble::expressions::MOST_BRACKETS;
use second::assemble::operations::Field;

const LARGE: i64 = i32::MAX as i64;

/// What may be written: labels with their values, how many brackets are open, how much is left to spend.
struct Writer<'r, 'l> {
    random: &'r mut Random,
    labels: &'l [(Token, i64)],
    left: u32,
}

/// A value for a field: its limits, a label's value, or anything it takes.
pub fn value(random: &mut Random, field: Field, labels: &[(Token, i64)]) -> i64 {
    let (least, greatest) = (field.least(), field.greatest());
    let fitting: Vec<i64> = labels.iter().map(|(_, value)| *value).filter(|value| *value <= greatest).collect();
    match random.below(100) {
        0..=11 => least,
        12..=23 => greatest,
        24..=33 => random.pick(&[0, 1, 2, 5]),
        34..=39 => random.pick(&[least + 1, greatest - 1, (least - 1) / 2, (greatest + 1) / 2]),
        40..=59 if !fitting.is_empty() => random.pick(&fitting),
        60..=84 if least == 0 && !fitting.is_empty() => random.pick(&fitting),
        _ => least + i64::from(random.below((greatest - least + 1) as u32)),
    }
}

/// The tokens of an expression with this value, which is within the 32-bit range.
pub fn of_value(random: &mut Random, value: i64, labels: &[(Token, i64)]) -> Vec<Token> {
    let left = random.weighted(&[(50, 0), (20, 1), (14, 3), (8, 6), (4, 12)]);
    let mut writer = Writer { random, labels, left };
    let mut tokens = writer.expression(value, 0);
    if random.below(40) == 0 {
        tokens = bracketed(tokens, random.between(14, MOST_BRACKETS) as usize);
    }
    tokens
}

/// Puts brackets around, but only so many that none is inside 16 open ones.
fn bracketed(tokens: Vec<Token>, wanted: usize) -> Vec<Token> {
    let more = wanted.saturating_sub(depth(&tokens));
    [vec![b"(".to_vec(); more], tokens, vec![b")".to_vec(); more]].concat()
}

/// How many brackets are open where most are.
pub fn depth(tokens: &[Token]) -> usize {
    let (mut open, mut most) = (0usize, 0);
    for token in tokens {
        match &token[..] {
            b"(" => open += 1,
            b")" => open = open.saturating_sub(1),
            _ => {}
        }
        most = most.max(open);
    }
    most
}

pub fn number(random: &mut Random, value: i64) -> Token {
    let zeros = random.weighted(&[(90, 0), (6, 1), (3, 5), (1, 40)]);
    format!("{}{value}", "0".repeat(zeros)).into_bytes()
}

impl Writer<'_, '_> {
    /// Whether something more than a leaf is to be written.
    fn spends(&mut self) -> bool {
        let spends = self.left > 0 && self.random.percent(85);
        self.left -= u32::from(spends);
        spends
    }

    fn expression(&mut self, value: i64, open: u32) -> Vec<Token> {
        if self.spends() {
            let other = self.other();
            if self.random.percent(50) && (value - other).abs() <= LARGE && self.may(other, open) {
                return self.joined(value - other, b"+", other, open);
            }
            if (value + other).abs() <= LARGE && self.may(other, open) {
                return self.joined(value + other, b"-", other, open);
            }
        }
        if self.may(value, open) && self.random.percent(85) || value >= 0 {
            return self.term(value, open);
        }
        // There is no sign.
        if value < -LARGE {
            return self.joined(value + 1, b"-", 1, open);
        }
        self.joined(0, b"-", -value, open)
    }

    /// What to add or take away: a label's value or any number.
    fn other(&mut self) -> i64 {
        if !self.labels.is_empty() && self.random.percent(60) {
            return self.random.pick(&(0..self.labels.len()).map(|at| self.labels[at].1).collect::<Vec<i64>>());
        }
        match self.random.below(10) {
            0 => i64::from(self.random.word() >> 1),
            1 => -i64::from(self.random.word() >> 1),
            2 => LARGE,
            _ => i64::from(self.random.below(200)) - 60,
        }
    }

    /// Whether a term may have the value: a negative one needs a bracket.
    fn may(&self, value: i64, open: u32) -> bool {
        value >= 0 || open < MOST_BRACKETS
    }

    fn joined(&mut self, left: i64, joint: &[u8], right: i64, open: u32) -> Vec<Token> {
        let mut tokens = self.expression(left, open);
        tokens.push(joint.to_vec());
        tokens.extend(self.term(right, open));
        tokens
    }

    fn term(&mut self, value: i64, open: u32) -> Vec<Token> {
        if self.spends() {
            let divisors: Vec<i64> = [2, 3, 5, 7, 1, -1].into_iter().filter(|divisor| value % divisor == 0).collect();
            let divisor = if value == 0 { self.other() } else { self.random.pick(&divisors) };
            let quotient = if value == 0 { 0 } else { value / divisor };
            let in_range = quotient <= LARGE && divisor.abs() <= LARGE;
            if in_range && self.may(divisor, open) && self.may(quotient, open) {
                let (first, second) = if self.random.percent(50) { (divisor, quotient) } else { (quotient, divisor) };
                let mut tokens = self.factor(first, open);
                tokens.push(b"*".to_vec());
                tokens.extend(self.factor(second, open));
                return tokens;
            }
        }
        self.factor(value, open)
    }

    fn factor(&mut self, value: i64, open: u32) -> Vec<Token> {
        let named: Vec<usize> = (0..self.labels.len()).filter(|&at| self.labels[at].1 == value).collect();
        if !named.is_empty() && self.random.percent(70) {
            return vec![self.labels[self.random.pick(&named)].0.clone()];
        }
        if value < 0 || open < MOST_BRACKETS && self.spends() {
            let inner = self.expression(value, open + 1);
            return [vec![b"(".to_vec()], inner, vec![b")".to_vec()]].concat();
        }
        vec![number(self.random, value)]
    }
}

#[cfg(test)]
mod tests {
    use super::*;
    use second::assemble::assemble;

    #[test]
    fn the_value_is_the_one_that_was_asked_for() {
        let labels = [(b"a".to_vec(), 0), (b"b".to_vec(), 1)];
        for index in 0..3000 {
            let mut random = Random::new(5, index);
            let wanted = value(&mut random, Field::Offset, &labels);
            let tokens = of_value(&mut random, wanted, &labels).join(&b' ');
            let text = [b"a: c0 nop;;\nb: c0 ldw $r0.0 = ", &tokens[..], b"[$r0.0]"].concat();
            let read = assemble(&text, 4096, 12);
            let bits = read.map(|instructions| instructions[1][0] & 0xFFF).map_err(|refusal| refusal.cause);
            assert_eq!(bits, Ok(Field::Offset.bits(wanted)), "{wanted}: {}", tokens.escape_ascii());
        }
    }
}
