//! A line is, each part optional and in this order: a label with its colon, one operation, `;;`, a comment.

use super::operations::{operation, Operation};
use super::tokens::{tokens, Token};
use crate::syllable::Register;

pub struct Line<'a> {
    /// The label that the line begins with; it counts even if the rest cannot be read.
    pub label: Option<&'a [u8]>,
    pub rest: Result<Rest<'a>, Misread>,
}

/// What comes after the label.
pub struct Rest<'a> {
    pub operation: Option<Operation<'a>>,
    pub ends: bool,
}

/// What had to stand at the token with this index, or at the line's end.
#[derive(Clone, Copy, Debug, PartialEq, Eq)]
pub struct Misread {
    pub wanted: Wanted,
    pub at: usize,
}

pub type Wanted = &'static str;

/// All lines of a text, the first one being line 1.
pub fn lines(text: &[u8]) -> impl Iterator<Item = (u32, &[u8])> {
    (1..).zip(text.split(|&byte| byte == b'\n'))
}

pub fn read(line: &[u8]) -> Line<'_> {
    let mut reader = Reader { tokens: tokens(line), at: 0 };
    let label = match reader.tokens[..] {
        [Token::Name(name), Token::Sign(b':'), ..] => Some(name),
        _ => None,
    };
    if label.is_some() {
        reader.at = 2;
    }
    let rest = rest(&mut reader).map_err(|wanted| Misread { wanted, at: reader.at });
    Line { label, rest }
}

fn rest<'a>(reader: &mut Reader<'a>) -> Result<Rest<'a>, Wanted> {
    let operation = match reader.peek() {
        None | Some(Token::End) => None,
        Some(_) => Some(operation(reader)?),
    };
    let ends = reader.taken(Token::End);
    match reader.peek() {
        None => Ok(Rest { operation, ends }),
        Some(_) if ends => Err("nothing after ;;"),
        Some(_) => Err("nothing after the operation"),
    }
}

/// Goes through a line's tokens; where something else is wanted it stays.
pub struct Reader<'a> {
    tokens: Vec<Token<'a>>,
    at: usize,
}

impl<'a> Reader<'a> {
    pub fn peek(&self) -> Option<Token<'a>> {
        self.tokens.get(self.at).copied()
    }

    /// Whether this token comes next; then it is passed.
    pub fn taken(&mut self, token: Token) -> bool {
        let is_next = self.peek() == Some(token);
        self.at += usize::from(is_next);
        is_next
    }

    pub fn sign(&mut self, sign: u8, wanted: Wanted) -> Result<(), Wanted> {
        self.taken(Token::Sign(sign)).then_some(()).ok_or(wanted)
    }

    /// The next token if it is of a kind, with what it says.
    pub fn token<T>(&mut self, wanted: Wanted, kind: impl Fn(Token<'a>) -> Option<T>) -> Result<T, Wanted> {
        let said = self.peek().and_then(kind).ok_or(wanted)?;
        self.at += 1;
        Ok(said)
    }

    /// The number of a cluster's general register.
    pub fn general(&mut self, of: u32) -> Result<u32, Wanted> {
        self.token("general register", |token| match token {
            Token::Register(Register::General { cluster, number }) if cluster == of => Some(number),
            _ => None,
        })
    }

    /// The number of a cluster's branch register.
    pub fn branch(&mut self, of: u32) -> Result<u32, Wanted> {
        self.token("branch register", |token| match token {
            Token::Register(Register::Branch { cluster, number }) if cluster == of => Some(number),
            _ => None,
        })
    }
}

#[cfg(test)]
mod tests {
    use super::*;

    fn wanted(line: &str) -> Wanted {
        read(line.as_bytes()).rest.err().map_or("", |misread| misread.wanted)
    }

    #[test]
    fn parts_in_their_order() {
        let whole = read(b" a : c0 nop ;; # c0 nop");
        assert_eq!(whole.label, Some(&b"a"[..]));
        let rest = whole.rest.ok().unwrap();
        assert_eq!((rest.operation.is_some(), rest.ends), (true, true));
        for line in ["", " \t\r", "# any", "a:", "a:#", "c0 nop", "c0 nop;;", ";;", "a:;;", "c0: c0 nop"] {
            assert_eq!(wanted(line), "", "{line}");
        }
        assert_eq!(wanted(";; c0 nop"), "nothing after ;;");
        assert_eq!(wanted(";;;;"), "nothing after ;;");
        assert_eq!(wanted(";;;"), "nothing after ;;");
        assert_eq!(wanted("c0 nop c0 nop"), "nothing after the operation");
        assert_eq!(wanted("c0 nop ;"), "nothing after the operation");
        assert_eq!(wanted("a: b:"), "cluster");
        assert_eq!(wanted("c0 nop a:"), "nothing after the operation");
    }

    #[test]
    fn a_label_counts_whatever_follows_it() {
        for line in ["a: \0", "a::", "a: b:", "a:$", "a\t: nop"] {
            let line = read(line.as_bytes());
            assert_eq!((line.label, line.rest.is_err()), (Some(&b"a"[..]), true));
        }
        for line in ["a\0:", "\0a:", "1a:", "\u{FEFF}a:", "a b:", "$r0.1:", "a#:", ":a:", "a"] {
            assert_eq!(read(line.as_bytes()).label, None, "{line}");
        }
    }

    #[test]
    fn the_last_line_needs_no_newline() {
        let all: Vec<(u32, &[u8])> = lines(b"a\r\n\nb").collect();
        assert_eq!(all, [(1, &b"a\r"[..]), (2, b""), (3, b"b")]);
    }
}
