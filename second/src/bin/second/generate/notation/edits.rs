//! A fixed set: every row of the notation page with each token left out, doubled, exchanged with the next, or replaced by each of a
//! list; and every byte in several places.

use std::sync::OnceLock;

/// A line of each row, single blanks between its tokens; `a` is given here and `b` above.
const ROWS: [&str; 24] = [
    "a : c1 add $r1.1 = $r1.2 , $r1.3 ;;",
    "c1 xor $r1.1 = $r1.2 , b ;;",
    "c1 sub $r1.1 = $r1.2 , $r1.3",
    "c1 sub $r1.1 = 5 , $r1.3",
    "c1 cmpeq $r1.1 = $r1.2 , 5",
    "c1 cmpltu $b1.1 = $r1.2 , $r1.3",
    "c1 zxth $r1.1 = $r1.2",
    "c1 addcg $r1.1 , $b1.2 = $b1.3 , $r1.4 , $r1.5",
    "c1 slct $r1.1 = $b1.2 , $r1.3 , $r1.4",
    "c1 ldw $r1.1 = 5 [ $r1.2 ]",
    "c1 stb 5 [ $r1.2 ] = $r1.1",
    "c1 copy $r1.1 = $r0.2",
    "c1 = c0 mov $r1.1 = $r0.2",
    "c1 = c1 mov $r1.1 = $r1.2",
    "c1 goto 5",
    "c1 br $b1.1 , b",
    "c1 call $l0.0 = 5",
    "c1 return $l0.0",
    "c1 nop",
    "a : c1 stop ;;",
    "c1 goto ( 1 + b ) * 2 - 1",
    "c1 ldhu $r1.1 = 5 - ( 4 - 3 ) [ $r1.2 ]",
    "a :",
    ";;",
];

const OTHERS: [&str; 32] = [
    "a", "b", "c0", "c1", "c2", "add", "sub", "nop", "mov", "copy", "0", "64", "2048", "$r1.1", "$r0.1", "$r1.64",
    "$r1.01", "$b1.1", "$b0.1", "$b1.8", "$l0.0", "$l1.0", ":", "=", ",", "[", "]", "(", ")", "-", "*", ";;",
];

/// Where a byte is tried: alone, before an operation, inside a name, a number and a register, behind `;;`, and in a comment.
const PLACES: [&str; 7] =
    ["~", "~c0 nop", "a~a: c0 nop", "c0 goto 1~2", "c0 return $l0.0~;;", "c0 nop ;;~", "c0 nop # ~ ;;"];

/// All texts of the set.
pub fn texts() -> &'static [Vec<u8>] {
    static TEXTS: OnceLock<Vec<Vec<u8>>> = OnceLock::new();
    TEXTS.get_or_init(|| {
        let rows = ROWS.iter().flat_map(|row| edited(row)).map(|line| format!("b:\n{line}\n").into_bytes());
        let bytes = PLACES.iter().flat_map(|place| (0..=255).map(|byte| with_byte(place, byte)));
        rows.chain(bytes).collect()
    })
}

/// The line as it is, and with each edit.
fn edited(row: &str) -> Vec<String> {
    let tokens: Vec<&str> = row.split(' ').collect();
    let mut lines = vec![row.to_string()];
    for at in 0..tokens.len() {
        let (before, after) = (&tokens[..at], &tokens[at + 1..]);
        let mut put = |middle: &[&str]| lines.push([before, middle, after].concat().join(" "));
        put(&[]);
        put(&[tokens[at], tokens[at]]);
        for other in OTHERS {
            put(&[other]);
        }
        if let [next, ..] = after {
            lines.push([before, &[next, tokens[at]], &after[1..]].concat().join(" "));
        }
    }
    lines
}

fn with_byte(place: &str, byte: u8) -> Vec<u8> {
    place.bytes().map(|other| if other == b'~' { byte } else { other }).collect()
}
