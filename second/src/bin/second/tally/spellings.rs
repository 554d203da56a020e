//! How texts that are read are written.

use super::{class, Tally};
use second::assemble::instructions::{Instruction, Text};
use second::assemble::lines::{lines, read};
use second::assemble::operations::{Field, Operation, Value};
use second::assemble::tokens::{tokens, Token};
use std::collections::{BTreeMap, BTreeSet};

pub fn spelled(tally: &mut Tally, text: &[u8]) {
    let whole = Text::read(text);
    let mut seen = BTreeSet::new();
    let syllables: usize = whole.instructions.iter().map(Instruction::syllables).sum();
    seen.insert(format!("syllables: {}", class(syllables as u64, &[1, 255, 4095, 4096])));
    bytes(&mut seen, text);
    let givings = labels(&mut seen, text);
    for instruction in &whole.instructions {
        let operations = &instruction.operations;
        let clusters: BTreeSet<u32> = operations.iter().map(|(_, operation)| operation.cluster).collect();
        seen.insert(format!("busy clusters: {}", clusters.len()));
        seen.insert(format!("idle clusters: {}", instruction.syllables() - operations.len()));
        seen.insert(format!("operations: {}", class(operations.len() as u64, &[1, 2, 6])));
        for (line, operation) in operations {
            coded(&mut seen, operation);
            if let Some(value) = &operation.value {
                valued(&mut seen, &whole, value);
                for name in value.expression.uses() {
                    let way = match givings[name].cmp(line) {
                        std::cmp::Ordering::Less => "above",
                        std::cmp::Ordering::Equal => "on its line",
                        std::cmp::Ordering::Greater => "below",
                    };
                    seen.insert(format!("use of a label given {way}"));
                }
            }
        }
    }
    for what in seen {
        tally.count(format!("00 read, {what}"));
    }
}

/// What the bytes and lines are like.
fn bytes(seen: &mut BTreeSet<String>, text: &[u8]) {
    let mut said = |is: bool, what: &str| is.then(|| seen.insert(what.to_string()));
    said(text.last() != Some(&b'\n'), "last line without a newline");
    said(!text.contains(&b' '), "no blank");
    let mut last_ends = true;
    for (_, line) in lines(text) {
        let before: Vec<u8> = line.iter().copied().take_while(|&byte| byte != b'#').collect();
        said(before.contains(&b'\t'), "tab");
        said(before.ends_with(b"\r"), "carriage return at the end of a line");
        said(before.trim_ascii_end().contains(&b'\r'), "carriage return between tokens");
        if before.len() < line.len() {
            said(true, "comment");
            said(line[before.len()..].starts_with(b"##"), "comment of the manual's kind");
            said(line.contains(&0), "comment with byte 0");
            said(line.iter().any(|&byte| byte > 127), "comment with bytes above 127");
            said(line[before.len()..].windows(2).any(|pair| pair == b";;"), "comment with ;;");
        }
        let tokens = tokens(line);
        said(tokens.is_empty(), "line without a token");
        said(tokens == [Token::End], ";; alone");
        said(tokens.len() > 1 && tokens.contains(&Token::End), ";; behind an operation");
        let mov = |four: &[Token]| four[1] == Token::Sign(b'=') && four[3] == Token::Name(b"mov");
        said(tokens.windows(4).any(mov), "mov");
        let zeros = |token: &Token| matches!(token, Token::Number([b'0', _, ..]));
        said(tokens.iter().any(zeros), "number with leading zeros");
        let long = |token: &Token| matches!(token, Token::Number(digits) if digits.len() > 20);
        said(tokens.iter().any(long), "number of more than 20 digits");
        if !tokens.is_empty() && read(line).label.is_none_or(|_| tokens.len() > 2) {
            last_ends = tokens.contains(&Token::End);
        }
    }
    said(!last_ends, "last instruction without ;;");
    for (_, line) in lines(text) {
        let deep = depth(&tokens(line));
        if deep > 0 {
            seen.insert(format!("brackets {deep} deep"));
        }
    }
}

fn depth(tokens: &[Token]) -> usize {
    let (mut open, mut most) = (0usize, 0);
    for token in tokens {
        match token {
            Token::Sign(b'(') => open += 1,
            Token::Sign(b')') => open -= 1,
            _ => {}
        }
        most = most.max(open);
    }
    most
}

/// The labels with their lines; what they are like and where they stand.
fn labels<'a>(seen: &mut BTreeSet<String>, text: &'a [u8]) -> BTreeMap<&'a [u8], u32> {
    let mut givings = BTreeMap::new();
    let mut before = 0;
    for (number, line) in lines(text) {
        let count = tokens(line).len();
        let Some(name) = read(line).label else {
            before = if count > 0 { 0 } else { before };
            continue;
        };
        givings.insert(name, number);
        seen.insert(if count > 2 { "label before an operation" } else { "label alone on its line" }.to_string());
        if before > 0 {
            seen.insert("several labels before one instruction".to_string());
        }
        before = if count > 2 { 0 } else { before + 1 };
        let like = match name {
            [b'c', b'0'..=b'3'] => "a cluster",
            b"add" | b"nop" | b"mov" | b"call" | b"return" => "an operation",
            _ if name.contains(&b'?') => "no other, with ?",
            _ if name.contains(&b'.') => "no other, with a point",
            _ if name.starts_with(b"_") => "no other, with _ in front",
            _ => continue,
        };
        seen.insert(format!("label named like {like}"));
    }
    if before > 0 {
        seen.insert("label after the last instruction".to_string());
    }
    givings
}

/// The opcode, and what of it a table or the loader may refuse.
fn coded(seen: &mut BTreeSet<String>, operation: &Operation) {
    let (opcode, cluster) = (operation.word >> 24, operation.cluster);
    let with = if operation.value.is_some() { " with a value" } else { "" };
    match opcode {
        0 => seen.insert(format!("opcode 00, number {} in cluster {cluster}", operation.word >> 18)),
        60 => seen.insert(format!("opcode 60 in cluster {cluster} from cluster {}", operation.word & 3)),
        61..=63 => seen.insert(format!("opcode {opcode} in cluster {cluster}")),
        _ => seen.insert(format!("opcode {opcode:02}{with}")),
    };
}

fn valued(seen: &mut BTreeSet<String>, whole: &Text, value: &Value) {
    let number = value.expression.value(&|name| whole.value(name).expect("a label that is given")).expect("a value");
    let field = match value.field {
        Field::Immediate => "immediate",
        Field::Offset => "offset",
        Field::GotoTarget => "goto's target",
        Field::BranchTarget => "a branch's target",
        Field::CallTarget => "call's target",
    };
    let kind = match number {
        _ if number == value.field.least() => "at its least",
        _ if number == value.field.greatest() => "at its greatest",
        _ if number < 0 => "below 0",
        0 => "0",
        _ => "above 0",
    };
    seen.insert(format!("{field} {kind}"));
}
