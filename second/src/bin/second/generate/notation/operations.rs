//! Operations that are read, one of every row of the notation page.

use super::super::random::Random;
use super::{expressions, Token};
use second::assemble::operations::{Field, NAMES, NAMES_OF_0};

#[derive(Clone)]
pub enum Part {
    Token(Token),
    /// An immediate, an offset or a target.
    Value(Field, Vec<Token>),
}

/// The cluster, the name and what follows it.
#[derive(Clone)]
pub struct Op {
    pub cluster: u32,
    pub parts: Vec<Part>,
}

impl Op {
    pub fn tokens(&self) -> Vec<Token> {
        let tokens = |part: &Part| match part {
            Part::Token(token) => vec![token.clone()],
            Part::Value(_, tokens) => tokens.clone(),
        };
        self.parts.iter().flat_map(tokens).collect()
    }

    pub fn has_value(&self) -> bool {
        self.parts.iter().any(|part| matches!(part, Part::Value(..)))
    }

    /// Where registers stand among the parts.
    pub fn registers(&self) -> Vec<usize> {
        let is_register = |part: &Part| matches!(part, Part::Token(token) if token.starts_with(b"$"));
        (0..self.parts.len()).filter(|&at| is_register(&self.parts[at])).collect()
    }

    /// An operation from its words, blanks between.
    pub fn of_words(cluster: u32, words: &str) -> Op {
        let parts = words.split(' ').map(|word| Part::Token(word.as_bytes().to_vec())).collect();
        Op { cluster, parts }
    }
}

/// Writes an operation; `{r}` is a general register of its cluster, `{b}` a branch register, `{x}` one of any cluster,
/// `{s}` a register or an immediate, and a field's name stands for its value.
fn written(random: &mut Random, cluster: u32, form: &str, labels: &[(Token, i64)]) -> Op {
    let mut parts = vec![Part::Token(format!("c{cluster}").into_bytes())];
    for word in form.split(' ') {
        let field = match word {
            "{s}" if random.percent(50) => None,
            "{s}" => Some(Field::Immediate),
            "{offset}" => Some(Field::Offset),
            "{goto}" => Some(Field::GotoTarget),
            "{branch}" => Some(Field::BranchTarget),
            "{call}" => Some(Field::CallTarget),
            _ => None,
        };
        parts.push(match (word, field) {
            (_, Some(field)) => {
                let value = expressions::value(random, field, labels);
                Part::Value(field, expressions::of_value(random, value, labels))
            }
            ("{r}" | "{s}", _) => Part::Token(general(random, cluster)),
            ("{b}", _) => Part::Token(branch(random, cluster)),
            ("{x}", _) => {
                let from = random.below(4);
                Part::Token(general(random, from))
            }
            _ => Part::Token(word.as_bytes().to_vec()),
        });
    }
    Op { cluster, parts }
}

pub fn general(random: &mut Random, cluster: u32) -> Token {
    let number = random.below(64);
    let number = random.pick(&[0, 1, 9, 10, 59, 60, 63, number, number, number]);
    format!("$r{cluster}.{number}").into_bytes()
}

pub fn branch(random: &mut Random, cluster: u32) -> Token {
    format!("$b{cluster}.{}", random.below(8)).into_bytes()
}

/// Stands for mov among the opcodes, behind the numbers of opcode 0.
pub const MOV: u32 = 68;

/// Any operation of a cluster.
pub fn any(random: &mut Random, cluster: u32, labels: &[(Token, i64)]) -> Op {
    let which = match random.below(100) {
        0..=9 => random.between(64, 67),
        10..=12 => MOV,
        13..=15 => 60,
        16..=24 => random.between(61, 63),
        25..=40 => random.between(52, 59),
        _ => random.between(1, 51),
    };
    one(random, cluster, which, labels)
}

/// An operation by its opcode; 64 to 67 are the numbers of opcode 0.
pub fn one(random: &mut Random, cluster: u32, which: u32, labels: &[(Token, i64)]) -> Op {
    let name = match which {
        40..=49 => NAMES[which as usize - 10],
        64..=67 => NAMES_OF_0[which as usize - 64],
        MOV => "mov",
        _ => NAMES[which as usize],
    };
    let form = match which {
        2 => format!("{name} {{r}} = {{s}} , {{r}}"),
        1..=18 | 24..=39 => format!("{name} {{r}} = {{r}} , {{s}}"),
        40..=49 => format!("{name} {{b}} = {{r}} , {{s}}"),
        19..=22 => format!("{name} {{r}} = {{r}}"),
        23 => format!("{name} {{r}} , {{b}} = {{b}} , {{r}} , {{r}}"),
        50 | 51 => format!("{name} {{r}} = {{b}} , {{r}} , {{r}}"),
        52..=56 => format!("{name} {{r}} = {{offset}} [ {{r}} ]"),
        57..=59 => format!("{name} {{offset}} [ {{r}} ] = {{r}}"),
        60 => format!("{name} {{r}} = {{x}}"),
        61 => format!("{name} {{goto}}"),
        62 | 63 => format!("{name} {{b}} , {{branch}}"),
        66 => format!("{name} $l0.0 = {{call}}"),
        67 => format!("{name} $l0.0"),
        MOV => {
            let from = random.below(4);
            let source = String::from_utf8(general(random, from)).expect("a register is text");
            format!("= c{from} {name} {{r}} = {source}")
        }
        _ => name.to_string(),
    };
    written(random, cluster, &form, labels)
}
