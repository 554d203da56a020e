//! Operations: a cluster, a name, then what the name's row of the notation page has.

use super::expressions::{expression, Expression};
use super::lines::{Reader, Wanted};
use super::tokens::Token;
use crate::syllable::Register;

/// A syllable without bits 31 and 30, and the value that goes into its lowest bits.
pub struct Operation<'a> {
    pub cluster: u32,
    pub word: u32,
    pub value: Option<Value<'a>>,
}

pub struct Value<'a> {
    pub field: Field,
    pub expression: Expression<'a>,
}

#[derive(Clone, Copy, Debug, PartialEq, Eq)]
pub enum Field {
    Immediate,
    Offset,
    GotoTarget,
    BranchTarget,
    CallTarget,
}

impl Field {
    pub fn least(self) -> i64 {
        match self {
            Field::Immediate => -1024,
            Field::Offset => -2048,
            Field::GotoTarget | Field::BranchTarget | Field::CallTarget => 0,
        }
    }

    pub fn greatest(self) -> i64 {
        match self {
            Field::Immediate => 1023,
            Field::Offset => 2047,
            Field::GotoTarget => (1 << 24) - 1,
            Field::BranchTarget => (1 << 21) - 1,
            Field::CallTarget => (1 << 18) - 1,
        }
    }

    /// A value of the field as its bits, two's complement.
    pub fn bits(self, value: i64) -> u32 {
        let width = match self {
            Field::Immediate => 11,
            Field::Offset => 12,
            Field::GotoTarget => 24,
            Field::BranchTarget => 21,
            Field::CallTarget => 18,
        };
        value.rem_euclid(1 << width) as u32
    }
}

/// Names by opcode; opcode 0 has names of its own, and 40 to 49 those of 30 to 39.
pub const NAMES: [&str; 64] = [
    "", "add", "sub", "and", "andc", "or", "orc", "xor", "shl", "shr", "shru", "sh1add", "sh2add", "sh3add", "sh4add",
    "max", "maxu", "min", "minu", "sxtb", "sxth", "zxtb", "zxth", "addcg", "mpyll", "mpyllu", "mpylh", "mpylhu",
    "mpyhh", "mpyhhu", "cmpeq", "cmpne", "cmplt", "cmple", "cmpgt", "cmpge", "cmpltu", "cmpleu", "cmpgtu", "cmpgeu",
    "", "", "", "", "", "", "", "", "", "", "slct", "slctf", "ldw", "ldh", "ldhu", "ldb", "ldbu", "stw", "sth", "stb",
    "copy", "goto", "br", "brf",
];

/// Opcode 0 by the number in bits 23..18.
pub const NAMES_OF_0: [&str; 4] = ["nop", "stop", "call", "return"];

/// Bit 11 says that s2 is an immediate.
const IMMEDIATE: u32 = 1 << 11;

pub fn operation<'a>(reader: &mut Reader<'a>) -> Result<Operation<'a>, Wanted> {
    let cluster = read_cluster(reader)?;
    if reader.taken(Token::Sign(b'=')) {
        let from = read_cluster(reader)?;
        reader.token("mov", |token| (token == Token::Name(b"mov")).then_some(()))?;
        let (t, s1) = (reader.general(cluster)?, equals(reader)?.general(from)?);
        return Ok(plain(cluster, 60 << 24 | t << 18 | s1 << 12 | from));
    }
    let (opcode, number) = reader.token("operation's name", |token| match token {
        Token::Name(name) => named(name),
        _ => None,
    })?;
    let word = opcode << 24;
    match opcode {
        0 => of_opcode_0(reader, cluster, number),
        // The first minus the second, so s2 is written first.
        2 => {
            let t = reader.general(cluster)?;
            let (s2, value) = source(equals(reader)?, cluster)?;
            let s1 = comma(reader)?.general(cluster)?;
            Ok(Operation { cluster, word: word | t << 18 | s1 << 12 | s2, value })
        }
        1..=18 | 24..=29 => {
            let t = reader.general(cluster)?;
            two_sources(reader, cluster, word | t << 18)
        }
        // The destination decides.
        30..=39 => {
            let to_branch = matches!(reader.peek(), Some(Token::Register(Register::Branch { .. })));
            let (opcode, t) =
                if to_branch { (opcode + 10, reader.branch(cluster)?) } else { (opcode, reader.general(cluster)?) };
            two_sources(reader, cluster, opcode << 24 | t << 18)
        }
        19..=22 => {
            let (t, s1) = (reader.general(cluster)?, equals(reader)?.general(cluster)?);
            Ok(plain(cluster, word | t << 18 | s1 << 12))
        }
        23 => {
            let (t, carry) = (reader.general(cluster)?, comma(reader)?.branch(cluster)?);
            let (b, s1, s2) = condition_and_sources(reader, cluster)?;
            Ok(plain(cluster, word | t << 18 | s1 << 12 | b << 9 | carry << 6 | s2))
        }
        50 | 51 => {
            let t = reader.general(cluster)?;
            let (b, s1, s2) = condition_and_sources(reader, cluster)?;
            Ok(plain(cluster, word | t << 18 | s1 << 12 | b << 9 | s2))
        }
        52..=56 => {
            let t = reader.general(cluster)?;
            let (offset, base) = address(equals(reader)?, cluster)?;
            Ok(with_value(cluster, word | t << 18 | base << 12, Field::Offset, offset))
        }
        57..=59 => {
            let (offset, base) = address(reader, cluster)?;
            let stored = equals(reader)?.general(cluster)?;
            Ok(with_value(cluster, word | stored << 18 | base << 12, Field::Offset, offset))
        }
        // The source register names its cluster.
        60 => {
            let t = reader.general(cluster)?;
            let (from, s1) = equals(reader)?.token("general register of any cluster", |token| match token {
                Token::Register(Register::General { cluster, number }) => Some((cluster, number)),
                _ => None,
            })?;
            Ok(plain(cluster, word | t << 18 | s1 << 12 | from))
        }
        61 => Ok(with_value(cluster, word, Field::GotoTarget, expression(reader)?)),
        _ => {
            let b = reader.branch(cluster)?;
            Ok(with_value(cluster, word | b << 21, Field::BranchTarget, expression(comma(reader)?)?))
        }
    }
}

fn of_opcode_0<'a>(reader: &mut Reader<'a>, cluster: u32, number: u32) -> Result<Operation<'a>, Wanted> {
    let word = number << 18;
    match NAMES_OF_0[number as usize] {
        "call" => {
            link(reader)?;
            Ok(with_value(cluster, word, Field::CallTarget, expression(equals(reader)?)?))
        }
        "return" => {
            link(reader)?;
            Ok(plain(cluster, word))
        }
        _ => Ok(plain(cluster, word)),
    }
}

/// Opcode and, for opcode 0, the number in bits 23..18.
fn named(name: &[u8]) -> Option<(u32, u32)> {
    let index = |names: &[&str]| names.iter().position(|other| other.as_bytes() == name).map(|index| index as u32);
    index(&NAMES).map(|opcode| (opcode, 0)).or(index(&NAMES_OF_0).map(|number| (0, number)))
}

fn plain<'a>(cluster: u32, word: u32) -> Operation<'a> {
    Operation { cluster, word, value: None }
}

fn with_value(cluster: u32, word: u32, field: Field, expression: Expression) -> Operation {
    Operation { cluster, word, value: Some(Value { field, expression }) }
}

fn read_cluster(reader: &mut Reader) -> Result<u32, Wanted> {
    reader.token("cluster", |token| match token {
        Token::Name(&[b'c', digit @ b'0'..=b'3']) => Some(u32::from(digit - b'0')),
        _ => None,
    })
}

fn link(reader: &mut Reader) -> Result<(), Wanted> {
    reader.token("link", |token| (token == Token::Link).then_some(()))
}

fn equals<'r, 'a>(reader: &'r mut Reader<'a>) -> Result<&'r mut Reader<'a>, Wanted> {
    reader.sign(b'=', "=")?;
    Ok(reader)
}

fn comma<'r, 'a>(reader: &'r mut Reader<'a>) -> Result<&'r mut Reader<'a>, Wanted> {
    reader.sign(b',', ",")?;
    Ok(reader)
}

/// `= s1, s2`, the second a register or an expression.
fn two_sources<'a>(reader: &mut Reader<'a>, cluster: u32, word: u32) -> Result<Operation<'a>, Wanted> {
    let s1 = equals(reader)?.general(cluster)?;
    let (s2, value) = source(comma(reader)?, cluster)?;
    Ok(Operation { cluster, word: word | s1 << 12 | s2, value })
}

/// s2: the low bits with a register's number, or bit 11 and the immediate to come.
fn source<'a>(reader: &mut Reader<'a>, cluster: u32) -> Result<(u32, Option<Value<'a>>), Wanted> {
    if let Some(Token::Register(_)) = reader.peek() {
        return Ok((reader.general(cluster)?, None));
    }
    Ok((IMMEDIATE, Some(Value { field: Field::Immediate, expression: expression(reader)? })))
}

/// `= b, s1, s2`.
fn condition_and_sources(reader: &mut Reader, cluster: u32) -> Result<(u32, u32, u32), Wanted> {
    let b = equals(reader)?.branch(cluster)?;
    Ok((b, comma(reader)?.general(cluster)?, comma(reader)?.general(cluster)?))
}

/// `offset[base]`.
fn address<'a>(reader: &mut Reader<'a>, cluster: u32) -> Result<(Expression<'a>, u32), Wanted> {
    let offset = expression(reader)?;
    reader.sign(b'[', "[")?;
    let base = reader.general(cluster)?;
    reader.sign(b']', "]")?;
    Ok((offset, base))
}

#[cfg(test)]
mod tests {
    use crate::assemble::assemble;

    /// The syllables of a text, written as the text program has them.
    fn syllables(text: &str) -> String {
        let instructions = assemble(text.as_bytes(), 4096, 12).unwrap_or_else(|refusal| panic!("{text}: {refusal:?}"));
        let words: Vec<String> = instructions.concat().iter().map(|word| format!("{word:08X}")).collect();
        words.join(" ")
    }

    fn is_18(line: &str) {
        let refusal = assemble(line.as_bytes(), 4096, 12).err().unwrap_or_else(|| panic!("{line} is read"));
        assert_eq!((refusal.number, refusal.place), (18, 1), "{line}");
    }

    #[test]
    fn every_row_of_the_table() {
        for (text, expected) in [
            ("c0 add $r0.1 = $r0.2, $r0.3", "C1042003"),
            ("c0 add $r0.1 = $r0.2, 5", "C1042805"),
            ("c0 sub $r0.1 = $r0.3, $r0.2", "C2042003"),
            ("c0 sub $r0.1 = 5, $r0.2", "C2042805"),
            ("c0 cmpeq $r0.1 = $r0.2, $r0.3", "DE042003"),
            ("c0 cmpeq $b0.1 = $r0.2, 5", "E8042805"),
            ("c0 sxtb $r0.1 = $r0.2", "D3042000"),
            ("c0 addcg $r0.1, $b0.2 = $b0.3, $r0.4, $r0.5", "D7044685"),
            ("c0 slct $r0.1 = $b0.2, $r0.3, $r0.4", "F2043404"),
            ("c0 slctf $r0.63 = $b0.7, $r0.63, $r0.63", "F3FFFE3F"),
            ("c0 ldw $r0.1 = 40[$r0.2]", "F4042028"),
            ("c0 stw 40[$r0.2] = $r0.1", "F9042028"),
            ("c1 copy $r1.4 = $r0.3", "40000000 FC103000"),
            ("c1=c0 mov $r1.4 = $r0.3", "40000000 FC103000"),
            ("c3 = c2 mov $r3.7 = $r2.1", "40000000 40000000 40000000 FC1C1002"),
            ("c0 copy $r0.1 = $r0.2", "FC042000"),
            ("c0 goto 3", "FD000003"),
            ("c0 br $b0.1, 3", "FE200003"),
            ("c0 brf $b0.7, 3", "FFE00003"),
            ("c0 call $l0.0 = 7", "C0080007"),
            ("c2 call $l0.0 = 7", "40000000 40000000 C0080007"),
            ("c0 return $l0.0", "C00C0000"),
            ("c1 return $l0.0", "40000000 C00C0000"),
            ("c0 nop", "C0000000"),
            ("c0 stop", "C0040000"),
        ] {
            assert_eq!(syllables(text), expected, "{text}");
        }
    }

    #[test]
    fn every_name() {
        let two_sources = "add and andc or orc xor shl shr shru sh1add sh2add sh3add sh4add max maxu min minu \
            mpyll mpyllu mpylh mpylhu mpyhh mpyhhu cmpeq cmpne cmplt cmple cmpgt cmpge cmpltu cmpleu cmpgtu cmpgeu";
        let opcodes = [1].into_iter().chain(3..=18).chain(24..=39);
        for (name, opcode) in two_sources.split_whitespace().zip(opcodes) {
            let word = 0xC004_2003u32 | opcode << 24;
            assert_eq!(syllables(&format!("c0 {name} $r0.1 = $r0.2, $r0.3")), format!("{word:08X}"));
        }
        let comparisons = "eq ne lt le gt ge ltu leu gtu geu";
        for (name, opcode) in comparisons.split_whitespace().zip(40..=49) {
            let word = 0xC01C_2003u32 | opcode << 24;
            assert_eq!(syllables(&format!("c0 cmp{name} $b0.7 = $r0.2, $r0.3")), format!("{word:08X}"));
        }
        for (name, opcode) in ["sxtb", "sxth", "zxtb", "zxth"].into_iter().zip(19..=22) {
            let word = 0xC004_2000u32 | opcode << 24;
            assert_eq!(syllables(&format!("c0 {name} $r0.1 = $r0.2")), format!("{word:08X}"));
        }
        for (name, opcode) in ["ldw", "ldh", "ldhu", "ldb", "ldbu"].into_iter().zip(52..=56) {
            let word = 0xC004_2FFFu32 | opcode << 24;
            assert_eq!(syllables(&format!("c0 {name} $r0.1 = 0-1[$r0.2]")), format!("{word:08X}"));
        }
        for (name, opcode) in ["stw", "sth", "stb"].into_iter().zip(57..=59) {
            let word = 0xC004_2FFFu32 | opcode << 24;
            assert_eq!(syllables(&format!("c0 {name} 0-1[$r0.2] = $r0.1")), format!("{word:08X}"));
        }
    }

    #[test]
    fn the_swap_of_document_01() {
        assert_eq!(syllables("c0 add $r0.3 = $r0.4, 0\nc0 add $r0.4 = $r0.3, 0"), "410C4800 81103800");
    }

    #[test]
    fn clusters_and_idle_ones() {
        let two = "c1 add $r1.1 = $r1.0, 1\nc1 add $r1.2 = $r1.0, 2\nc3 nop\n;;\nc0 stop";
        assert_eq!(syllables(two), "40000000 41040801 01080802 40000000 C0000000 C0040000");
    }

    #[test]
    fn no_blanks_and_many() {
        let none = "c0 addcg$r0.1,$b0.2=$b0.3,$r0.4,$r0.5;;#";
        let many = "\t c0\r\taddcg  $r0.1 , $b0.2 = $b0.3\t,$r0.4 ,\r$r0.5 ;;\t## any\r\n";
        assert_eq!((syllables(none), syllables(many)), ("D7044685".to_string(), "D7044685".to_string()));
    }

    #[test]
    fn not_read() {
        for line in [
            "c0",
            "c0 ;;",
            "nop",
            "add $r0.1 = $r0.2, $r0.3",
            "c4 nop",
            "c00 nop",
            "C0 nop",
            "c0 NOP",
            "c0nop",
            "c0 xnop 1",
            "xnop 1",
            "c0 ldw.d $r0.1 = 0[$r0.2]",
            "c0 add $r0.1 = 5, $r0.2",
            "c0 sub $r0.1 = $r0.2, 5",
            "c0 add $r1.1 = $r0.2, $r0.3",
            "c0 add $r0.1 = $r1.2, $r0.3",
            "c0 add $r0.1 = $r0.2, $r1.3",
            "c0 add $r0.1 = $r0.2, $b0.3",
            "c0 add $b0.1 = $r0.2, $r0.3",
            "c0 add $r0.1 = $r0.2, $r0.64",
            "c0 add $r0.1 = $r0.2, $r0.03",
            "c0 add $r0.1 = $r0.2",
            "c0 add $r0.1, $r0.2, $r0.3",
            "c0 add $r0.1 = $r0.2, $r0.3, $r0.4",
            "c0 add $r0.1 = $r0.2, -5",
            "c0 cmpeq $b1.1 = $r0.2, 5",
            "c0 cmpeq $b0.8 = $r0.2, 5",
            "c0 cmpeq $l0.0 = $r0.2, 5",
            "c0 sxtb $r0.1 = 5",
            "c0 addcg $r0.1 = $b0.3, $r0.4, $r0.5",
            "c0 addcg $b0.2, $r0.1 = $b0.3, $r0.4, $r0.5",
            "c0 addcg $r0.1, $b0.2 = $b0.3, $r0.4, 5",
            "c0 slct $r0.1 = $b0.2, $r0.3, 4",
            "c0 ldw $r0.1 = [$r0.2]",
            "c0 ldw $r0.1 = 4($r0.2)",
            "c0 ldw $r0.1 = 4[$r1.2]",
            "c0 stw $r0.1 = 4[$r0.2]",
            "c0 stw 4[$r0.2] = 1",
            "c1 copy $r0.4 = $r0.3",
            "c1 copy $r1.4 = $b0.3",
            "c1 copy $r1.4 = 3",
            "c1 mov $r1.4 = $r0.3",
            "c1=c0 copy $r1.4 = $r0.3",
            "c1=c2 mov $r1.4 = $r0.3",
            "c1=c0 mov $r0.4 = $r0.3",
            "c1=c0mov $r1.4 = $r0.3",
            "c0 goto",
            "c0 goto4",
            "c0 goto $l0.0",
            "c0 goto 12ab",
            "c0 br $b1.1, 3",
            "c0 br 3",
            "c0 call 7",
            "c0 call $l0.0, 7",
            "c0 call $l1.0 = 7",
            "c1 call $l1.0 = 7",
            "c0 return",
            "c0 return $r0.1 = $r0.1, 32, $l0.0",
            "c0 return $l0.0 = 7",
            "c0 nop 1",
            "c0 stop $r0.0",
        ] {
            is_18(line);
        }
    }
}
