//! Why a line is 18: what was wanted, and what stood there.

use super::Tally;
use second::assemble::lines::read;
use second::assemble::operations::{NAMES, NAMES_OF_0};
use second::assemble::tokens::{tokens, Token};
use second::syllable::Register;

pub fn misread(tally: &mut Tally, line: &[u8], cause: &str) {
    let Err(misread) = read(line).rest else {
        tally.count(format!("18 wanted {cause}"));
        return;
    };
    let tokens = tokens(line);
    let cluster = tokens.iter().find_map(own_cluster);
    let found = tokens.get(misread.at).copied();
    tally.count(format!("18 wanted {cause}, found {}", described(found, cluster)));
    if let Some(Token::Stray(byte)) = found {
        tally.count(format!("18 stray {}", stray(byte)));
    }
    if let Some(odd) = odd_register(line) {
        tally.count(format!("18 register: {odd}"));
    }
}

fn own_cluster(token: &Token) -> Option<u32> {
    match token {
        Token::Name(&[b'c', digit @ b'0'..=b'3']) => Some(u32::from(digit - b'0')),
        _ => None,
    }
}

fn described(token: Option<Token>, own: Option<u32>) -> String {
    let other = |cluster: u32| if Some(cluster) == own { "" } else { " of another cluster" };
    match token {
        None => "the end of the line".to_string(),
        Some(Token::Name(name)) => name_kind(name).to_string(),
        Some(Token::Number(_)) => "a number".to_string(),
        Some(Token::Register(Register::General { cluster, .. })) => format!("a general register{}", other(cluster)),
        Some(Token::Register(Register::Branch { cluster, .. })) => format!("a branch register{}", other(cluster)),
        Some(Token::Link) => "the link".to_string(),
        Some(Token::End) => ";;".to_string(),
        Some(Token::Sign(sign)) => (sign as char).to_string(),
        Some(Token::Stray(_)) => "a stray byte".to_string(),
    }
}

fn name_kind(name: &[u8]) -> &'static str {
    let is = |other: &&str| other.as_bytes() == name;
    let lower: Vec<u8> = name.to_ascii_lowercase();
    match name {
        [b'c', b'0'..=b'3'] => "a cluster",
        b"mov" => "mov",
        b"xnop" => "xnop",
        _ if NAMES.iter().chain(&NAMES_OF_0).any(is) => "an operation's name",
        [b'c', b'0'..=b'9', ..] => "a cluster above 3 or with more behind it",
        _ if lower != name => "a name with upper case",
        _ if name.ends_with(b".d") || name.ends_with(b".s") || name.ends_with(b".l") => "a name with .d, .s or .l",
        _ => "another name",
    }
}

fn stray(byte: u8) -> String {
    match byte {
        0 => "byte 0".to_string(),
        0xEF => "byte order mark, or its first byte".to_string(),
        1..=31 | 127 => "control byte".to_string(),
        128..=255 => "byte above 127".to_string(),
        _ => (byte as char).to_string(),
    }
}

/// The first `$` of a line that begins no register as the page has them, and why.
fn odd_register(line: &[u8]) -> Option<&'static str> {
    let text = line.split(|&byte| byte == b'#').next().unwrap_or(line);
    let starts = (0..text.len()).filter(|&at| text[at] == b'$');
    starts.filter_map(|at| odd(&text[at + 1..])).next()
}

fn odd(rest: &[u8]) -> Option<&'static str> {
    let digits = |bytes: &[u8]| bytes.iter().take_while(|byte| byte.is_ascii_digit()).count();
    let Some(kind @ (b'r' | b'b' | b'l')) = rest.first() else {
        return Some("neither r, b nor l");
    };
    let cluster = &rest[1..][..digits(&rest[1..])];
    let Some(b'.') = rest.get(1 + cluster.len()) else {
        return Some("no point");
    };
    let behind = &rest[2 + cluster.len()..];
    let number = &behind[..digits(behind)];
    let value = number.iter().take(9).fold(0u32, |value, digit| 10 * value + u32::from(digit - b'0'));
    match (kind, cluster, number) {
        (_, _, []) => Some("no number"),
        (_, _, [b'0', _, ..]) => Some("a needless 0"),
        (_, [b'0', _, ..], _) => Some("a needless 0 of the cluster"),
        (b'l', b"0", b"0") => None,
        (b'l', _, _) => Some("another link"),
        (_, [b'0'..=b'3'], _) if *kind == b'r' && value > 63 => Some("general above 63"),
        (_, [b'0'..=b'3'], _) if *kind == b'b' && value > 7 => Some("branch above 7"),
        (_, [b'0'..=b'3'], _) => None,
        (_, [], _) => Some("no cluster"),
        _ => Some("a cluster above 3"),
    }
}
