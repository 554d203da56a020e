//! Expressions: terms joined by plus and minus, factors joined by a star, from the left; brackets at most 16 deep.

use super::lines::{Reader, Wanted};
use super::tokens::Token;

pub const MOST_BRACKETS: u32 = 16;

/// The terms with what joins them; the first one is added to 0.
pub struct Expression<'a> {
    terms: Vec<(Joint, Term<'a>)>,
}

#[derive(Clone, Copy, PartialEq, Eq)]
enum Joint {
    Plus,
    Minus,
}

/// The factors; the first one is multiplied by 1.
struct Term<'a> {
    factors: Vec<Factor<'a>>,
}

enum Factor<'a> {
    /// However large, what is beyond the range stays beyond it.
    Number(i64),
    Label(&'a [u8]),
    Bracketed(Expression<'a>),
}

pub fn expression<'a>(reader: &mut Reader<'a>) -> Result<Expression<'a>, Wanted> {
    inside(reader, 0)
}

/// An expression inside so many open brackets.
fn inside<'a>(reader: &mut Reader<'a>, open: u32) -> Result<Expression<'a>, Wanted> {
    let mut terms = vec![(Joint::Plus, term(reader, open)?)];
    loop {
        if reader.taken(Token::Sign(b'+')) {
            terms.push((Joint::Plus, term(reader, open)?));
        } else if reader.taken(Token::Sign(b'-')) {
            terms.push((Joint::Minus, term(reader, open)?));
        } else {
            return Ok(Expression { terms });
        }
    }
}

fn term<'a>(reader: &mut Reader<'a>, open: u32) -> Result<Term<'a>, Wanted> {
    let mut factors = vec![factor(reader, open)?];
    while reader.taken(Token::Sign(b'*')) {
        factors.push(factor(reader, open)?);
    }
    Ok(Term { factors })
}

fn factor<'a>(reader: &mut Reader<'a>, open: u32) -> Result<Factor<'a>, Wanted> {
    if reader.peek() == Some(Token::Sign(b'(')) && open == MOST_BRACKETS {
        return Err("no bracket inside 16 open ones");
    }
    if reader.taken(Token::Sign(b'(')) {
        let bracketed = inside(reader, open + 1)?;
        reader.sign(b')', ")")?;
        return Ok(Factor::Bracketed(bracketed));
    }
    reader.token("factor", |token| match token {
        Token::Number(digits) => Some(Factor::Number(number(digits))),
        Token::Name(name) => Some(Factor::Label(name)),
        _ => None,
    })
}

fn number(digits: &[u8]) -> i64 {
    let next = |number: i64, digit: &u8| (10 * number + i64::from(digit - b'0')).min(1 << 31);
    digits.iter().fold(0, next)
}

/// A value outside the signed 32-bit range; the cause says at which step.
pub type Outside = &'static str;

impl<'a> Expression<'a> {
    /// Every use of a label.
    pub fn uses(&self) -> Vec<&'a [u8]> {
        let mut uses = Vec::new();
        for factor in self.terms.iter().flat_map(|(_, term)| &term.factors) {
            match factor {
                Factor::Number(_) => {}
                Factor::Label(name) => uses.push(*name),
                Factor::Bracketed(inner) => uses.extend(inner.uses()),
            }
        }
        uses
    }

    /// The value where every label has one.
    pub fn value(&self, label: &dyn Fn(&[u8]) -> i64) -> Result<i64, Outside> {
        let mut sum = 0;
        for (joint, term) in &self.terms {
            let value = term.value(label)?;
            sum = match joint {
                Joint::Plus => within(sum + value, "a sum")?,
                Joint::Minus => within(sum - value, "a difference")?,
            };
        }
        Ok(sum)
    }
}

impl Term<'_> {
    fn value(&self, label: &dyn Fn(&[u8]) -> i64) -> Result<i64, Outside> {
        let mut product = 1;
        for factor in &self.factors {
            let value = match factor {
                Factor::Number(number) => within(*number, "a number")?,
                Factor::Label(name) => within(label(name), "a label's value")?,
                Factor::Bracketed(inner) => inner.value(label)?,
            };
            product = within(product * value, "a product")?;
        }
        Ok(product)
    }
}

/// The signed 32-bit range, at each step.
fn within(value: i64, step: Outside) -> Result<i64, Outside> {
    i32::try_from(value).map(i64::from).map_err(|_| step)
}

#[cfg(test)]
mod tests {
    use crate::assemble::assemble;

    /// The bits of an offset, or the number of the refusal.
    fn offset(expression: &str) -> Result<u32, u32> {
        let text = format!("c0 nop ;;\nc0 nop\nc2 nop;;\nfour: c0 ldw $r0.0 = {expression}[$r0.0];;\nfive:");
        match assemble(text.as_bytes(), 4096, 12) {
            Ok(instructions) => Ok(instructions[2][0] & 0xFFF),
            Err(refusal) => Err(refusal.number),
        }
    }

    #[test]
    fn from_the_left_and_stars_first() {
        for (expression, value) in [
            ("0", 0),
            ("007", 7),
            ("10-4-3", 3),
            ("10-(4-3)", 9),
            ("2+3*4", 14),
            ("2*3+4", 10),
            ("(2+3)*4", 20),
            ("2*3*4", 24),
            ("10-2*3+1", 5),
            ("four", 4),
            ("five*five-four", 21),
            ("( four\t+ 1 )*2", 10),
            ("0-1", 0xFFF),
            ("0-2048", 0x800),
            ("2047", 0x7FF),
            ("0-(0-5)", 5),
        ] {
            assert_eq!(offset(expression), Ok(value), "{expression}");
        }
    }

    #[test]
    fn brackets_are_16_deep_at_most() {
        let nested = |depth: usize| format!("{}5{}", "(".repeat(depth), ")".repeat(depth));
        assert_eq!(offset(&nested(16)), Ok(5));
        assert_eq!(offset(&nested(17)), Err(18));
        assert_eq!(offset(&format!("{}+{}", nested(16), nested(16))), Ok(10));
        assert_eq!(offset(&"(".repeat(1_000_000)), Err(18));
        let wide = format!("0{}", "+(1)-1".repeat(200_000));
        assert_eq!(offset(&wide), Ok(0));
    }

    #[test]
    fn outside_the_grammar() {
        for expression in
            ["", "-5", "+5", "5+", "5-", "*5", "5*", "5**5", "5 5", "()", "(5", "5)", "5 x", "$r0.1", "[5]"]
        {
            assert_eq!(offset(expression), Err(18), "{expression}");
        }
    }

    #[test]
    fn each_step_stays_in_range() {
        for expression in [
            "2147483648-2147483648",
            "2147483647+1-2147483647",
            "0-2147483647-2+2147483647",
            "65536*32768*0",
            "46341*46341-2147483647",
            "0*99999999999999999999999999999999999999999999",
            "(0-65536)*32769*0",
            "2048",
            "0-2049",
        ] {
            assert_eq!(offset(expression), Err(20), "{expression}");
        }
        let zeros = format!("{}2047", "0".repeat(1_000_000));
        assert_eq!(offset(&zeros), Ok(2047));
        assert_eq!(offset(&"9".repeat(1_000_000)), Err(20));
        assert_eq!(offset("2147483647-2147483647"), Ok(0));
        assert_eq!(offset("(0-65536)*32768+2147483647+1"), Ok(0));
        assert_eq!(offset("0-2147483647-1+2147483647"), Ok(0xFFF));
    }

    #[test]
    fn every_field_has_its_range() {
        let read =
            |line: &str| assemble(line.as_bytes(), 4096, 12).map(|read| read[0][0]).map_err(|refusal| refusal.number);
        for (line, syllable) in [
            ("c0 add $r0.0 = $r0.0, 1023", 0xC100_0BFF),
            ("c0 add $r0.0 = $r0.0, 0-1024", 0xC100_0C00),
            ("c0 sub $r0.0 = 0-1, $r0.0", 0xC200_0FFF),
            ("c0 ldw $r0.0 = 2047[$r0.0]", 0xF400_07FF),
            ("c0 stb 0-2048[$r0.0] = $r0.0", 0xFB00_0800),
            ("c0 goto 16777215", 0xFDFF_FFFF),
            ("c0 br $b0.0, 2097151", 0xFE1F_FFFF),
            ("c0 brf $b0.0, 2097151", 0xFF1F_FFFF),
            ("c0 call $l0.0 = 262143", 0xC00B_FFFF),
        ] {
            assert_eq!(read(line), Ok(syllable), "{line}");
        }
        for line in [
            "c0 add $r0.0 = $r0.0, 1024",
            "c0 add $r0.0 = $r0.0, 0-1025",
            "c0 cmpltu $b0.0 = $r0.0, 1024",
            "c0 sub $r0.0 = 1024, $r0.0",
            "c0 ldw $r0.0 = 2048[$r0.0]",
            "c0 stw 0-2049[$r0.0] = $r0.0",
            "c0 goto 16777216",
            "c0 goto 0-1",
            "c0 br $b0.0, 2097152",
            "c0 brf $b0.0, 0-1",
            "c0 call $l0.0 = 262144",
            "c0 call $l0.0 = 0-1",
        ] {
            assert_eq!(read(line), Err(20), "{line}");
        }
    }
}
