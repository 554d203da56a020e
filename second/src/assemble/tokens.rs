//! Tokens: each the longest that can be read where it begins.

use crate::syllable::Register;

#[derive(Clone, Copy, Debug, PartialEq, Eq)]
pub enum Token<'a> {
    /// A label, an operation's name or a cluster: its colon or its place shows which.
    Name(&'a [u8]),
    /// Digits, however many.
    Number(&'a [u8]),
    Register(Register),
    /// `$l0.0`.
    Link,
    /// `;;`.
    End,
    /// One of `: = , [ ] ( ) + - *`.
    Sign(u8),
    /// A byte with which no token begins; what follows it on its line is not read.
    Stray(u8),
}

/// The tokens of a line, its comment left out.
pub fn tokens(line: &[u8]) -> Vec<Token<'_>> {
    let mut tokens = Vec::new();
    let mut rest = line;
    while let Some(&first) = rest.first() {
        if first == b'#' {
            break;
        }
        if matches!(first, b' ' | b'\t' | b'\r') {
            rest = &rest[1..];
            continue;
        }
        let (token, length) = longest(rest);
        tokens.push(token);
        if matches!(token, Token::Stray(_)) {
            break;
        }
        rest = &rest[length..];
    }
    tokens
}

fn longest(rest: &[u8]) -> (Token<'_>, usize) {
    match rest[0] {
        b'a'..=b'z' | b'A'..=b'Z' | b'_' => {
            let name = leading(rest, |byte| byte.is_ascii_alphanumeric() || matches!(byte, b'_' | b'?' | b'.'));
            (Token::Name(name), name.len())
        }
        b'0'..=b'9' => {
            let digits = leading(rest, |byte| byte.is_ascii_digit());
            (Token::Number(digits), digits.len())
        }
        b';' if rest.starts_with(b";;") => (Token::End, 2),
        sign @ (b':' | b'=' | b',' | b'[' | b']' | b'(' | b')' | b'+' | b'-' | b'*') => (Token::Sign(sign), 1),
        first => {
            let register = [6, 5].into_iter().find_map(|length| Some((register(rest.get(..length)?)?, length)));
            register.unwrap_or((Token::Stray(first), 1))
        }
    }
}

fn leading(bytes: &[u8], which: impl Fn(u8) -> bool) -> &[u8] {
    let length = bytes.iter().position(|&byte| !which(byte)).unwrap_or(bytes.len());
    &bytes[..length]
}

/// `$r0.0` to `$r3.63` without a needless 0, `$b0.0` to `$b3.7` and the link, spelled as a whole.
fn register(spelled: &[u8]) -> Option<Token<'_>> {
    let digit = |byte: u8| u32::from(byte - b'0');
    match *spelled {
        [b'$', b'l', b'0', b'.', b'0'] => Some(Token::Link),
        [b'$', b'b', cluster @ b'0'..=b'3', b'.', number @ b'0'..=b'7'] => {
            Some(Token::Register(Register::Branch { cluster: digit(cluster), number: digit(number) }))
        }
        [b'$', b'r', cluster @ b'0'..=b'3', b'.', number @ b'0'..=b'9'] => {
            Some(Token::Register(Register::General { cluster: digit(cluster), number: digit(number) }))
        }
        [b'$', b'r', cluster @ b'0'..=b'3', b'.', tens @ b'1'..=b'9', ones @ b'0'..=b'9'] => {
            let number = 10 * digit(tens) + digit(ones);
            (number <= 63).then(|| Token::Register(Register::General { cluster: digit(cluster), number }))
        }
        _ => None,
    }
}

#[cfg(test)]
mod tests {
    use super::*;

    fn general(cluster: u32, number: u32) -> Token<'static> {
        Token::Register(Register::General { cluster, number })
    }

    #[test]
    fn the_longest_is_taken() {
        assert_eq!(tokens(b"goto4"), [Token::Name(b"goto4")]);
        assert_eq!(tokens(b"add$r0.1"), [Token::Name(b"add"), general(0, 1)]);
        assert_eq!(tokens(b"0-4[$r0.1]").len(), 6);
        assert_eq!(tokens(b"loop.x?:"), [Token::Name(b"loop.x?"), Token::Sign(b':')]);
        assert_eq!(tokens(b"12ab"), [Token::Number(b"12"), Token::Name(b"ab")]);
        assert_eq!(tokens(b";;;"), [Token::End, Token::Stray(b';')]);
        assert_eq!(tokens(b";;;;"), [Token::End, Token::End]);
        assert_eq!(tokens(b"_9.?_a"), [Token::Name(b"_9.?_a")]);
    }

    #[test]
    fn registers_are_one_token_each() {
        for cluster in 0..4 {
            for number in 0..64 {
                assert_eq!(tokens(format!("$r{cluster}.{number}").as_bytes()), [general(cluster, number)]);
            }
            for number in 0..8 {
                let branch = Token::Register(Register::Branch { cluster, number });
                assert_eq!(tokens(format!("$b{cluster}.{number}").as_bytes()), [branch]);
            }
        }
        assert_eq!(tokens(b"$l0.0"), [Token::Link]);
        assert_eq!(tokens(b"$r0.012"), [general(0, 0), Token::Number(b"12")]);
        assert_eq!(tokens(b"$r0.64"), [general(0, 6), Token::Number(b"4")]);
        assert_eq!(tokens(b"$r0.123"), [general(0, 12), Token::Number(b"3")]);
        for none in ["$b0.8", "$r4.0", "$b4.0", "$l1.0", "$l0.1", "$R0.1", "$r0", "$r0.", "$r 0.1", "$", "$x0.1"] {
            assert_eq!(tokens(none.as_bytes()), [Token::Stray(b'$')], "{none}");
        }
    }

    #[test]
    fn blanks_and_comments_mean_nothing() {
        assert_eq!(tokens(b" \t\r# \0\xFF $ ;"), []);
        assert_eq!(tokens(b"a\r:\t#:"), [Token::Name(b"a"), Token::Sign(b':')]);
        assert_eq!(tokens(b"a#b"), [Token::Name(b"a")]);
    }

    #[test]
    fn a_byte_of_no_token() {
        let in_a_token = |byte: u8| byte.is_ascii_alphanumeric() || b"_:=,[]()+-*".contains(&byte);
        for byte in 0..=255u8 {
            let expected = !in_a_token(byte) && !b" \t\r#".contains(&byte);
            assert_eq!(tokens(&[byte]) == [Token::Stray(byte)], expected, "{byte}");
        }
        assert_eq!(tokens(b"\xEF\xBB\xBFa:"), [Token::Stray(0xEF)]);
    }
}
