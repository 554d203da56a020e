//! Texts that are read: instructions with their clusters first, so that every label's value is known before an expression is written.

use super::super::random::Random;
use super::{operations, Line, Page, Token};
use second::load::MOST_SYLLABLES;

pub fn page(random: &mut Random) -> Page {
    let most = random.weighted(&[(12, 1), (30, 4), (20, 10), (2, 40)]);
    let instructions: Vec<Vec<u32>> = (0..random.between(1, most)).map(|_| clusters(random)).collect();
    // The last instruction may go without ;;, but not before a label.
    let last_ends = random.percent(70);
    let mut places = vec![0];
    for instruction in &instructions {
        places.push(places[places.len() - 1] + syllables(instruction));
    }
    let count = random.weighted(&[(25, 0), (30, 2), (25, 5), (5, 12)]);
    let labels: Vec<(usize, Token)> = (0..count)
        .map(|index| (random.index(instructions.len() + usize::from(last_ends)), name(random, index)))
        .collect();
    let values: Vec<(Token, i64)> = labels.iter().map(|(at, name)| (name.clone(), places[*at])).collect();

    let mut lines = Vec::new();
    for (index, instruction) in instructions.iter().enumerate() {
        labelled(&mut lines, &labels, index);
        // The last of them may stand on the line of the first operation.
        let joined = lines.last().is_some_and(|line: &Line| line.op.is_none() && !line.front.is_empty());
        for (operation, &cluster) in instruction.iter().enumerate() {
            let op = operations::any(random, cluster, &values);
            if operation == 0 && joined && random.percent(60) {
                let last = lines.len() - 1;
                lines[last].op = Some(op);
            } else {
                lines.push(Line::of(op));
            }
        }
        if index + 1 < instructions.len() || last_ends {
            end(random, &mut lines);
        }
    }
    labelled(&mut lines, &labels, instructions.len());
    Page { lines, labels: values }
}

/// The clusters of an instruction's operations, never falling.
fn clusters(random: &mut Random) -> Vec<u32> {
    let most = random.weighted(&[(50, 1), (30, 3), (18, 6), (1, 30)]);
    let among = random.pick(&[1, 2, 4, 4]);
    let mut clusters: Vec<u32> = (0..random.between(1, most)).map(|_| random.below(among)).collect();
    clusters.sort();
    clusters
}

/// How many syllables an instruction has, nops for idle clusters among them.
fn syllables(clusters: &[u32]) -> i64 {
    let last = clusters.last().copied().unwrap_or(0);
    let idle = (0..last).filter(|cluster| !clusters.contains(cluster)).count();
    (clusters.len() + idle) as i64
}

/// A name that no other index has.
fn name(random: &mut Random, index: usize) -> Token {
    const LIKE_OTHERS: [&str; 16] = [
        "c0", "c1", "c3", "c4", "add", "nop", "mov", "call", "return", "r0", "ldw.d", "xnop", "C0", "ADD", "goto4",
        "l0.0",
    ];
    let any = |random: &mut Random, from: &[u8]| random.pick(from) as char;
    match random.below(12) {
        0 | 1 => LIKE_OTHERS.get(index).map_or(format!("goto{index}"), |name| name.to_string()),
        2 => format!("L{index}"),
        3 => format!("l{index}"),
        4 => format!("_{index}"),
        5 => format!("loop.{index}"),
        6 => format!("{}?{index}?", any(random, b"zZ_")),
        7 => "p".repeat(index + 1),
        8 => format!("{}{}", if index % 2 == 0 { "Same" } else { "same" }, index / 2),
        9 => format!("frame_{index}.{}", "x".repeat(random.weighted(&[(9, 1), (1, 300)]))),
        _ => format!("{}{index}{}", any(random, b"abAB"), any(random, b"._?9z")),
    }
    .into_bytes()
}

fn labelled(lines: &mut Vec<Line>, labels: &[(usize, Token)], index: usize) {
    lines.extend(labels.iter().filter(|(at, _)| *at == index).map(|(_, name)| Line::labelled(name)));
}

fn end(random: &mut Random, lines: &mut Vec<Line>) {
    if random.percent(50) {
        lines.push(Line::default());
    }
    let last = lines.len() - 1;
    lines[last].back.push(b";;".to_vec());
}

/// A text of as many syllables as there may be, about; written plainly, since it is large.
pub fn full(random: &mut Random) -> Vec<u8> {
    let wanted = random.pick(&[MOST_SYLLABLES, MOST_SYLLABLES, MOST_SYLLABLES + 1, MOST_SYLLABLES - 1, 5000]);
    let (line, each) = random.pick(&[
        ("c0 nop;;\n", 1),
        ("c3 nop\n;;\n", 4),
        ("c0 add $r0.1 = $r0.2, 5\nc2 stop;;\n", 3),
        ("c1 goto (end-1)*1 ;;\n", 2),
        ("c0 nop\n", 1),
    ]);
    let mut text = line.repeat(wanted / each).into_bytes();
    if line == "c0 nop\n" {
        text.extend(b";;\n");
    }
    for _ in 0..wanted % each {
        text.extend(b"c0 br $b0.7, end-1;;\n");
    }
    text.extend(b"end:\n");
    // What comes before 2, far down.
    text.extend(random.pick(&[
        &b""[..],
        b"",
        b"",
        b"",
        b"# no fault\n\n",
        b"c0 nop;",
        b"end:",
        b"c0 goto 0-1",
        b"c0 goto nowhere",
    ]));
    text
}

/// A text with a long line, a long token or many labels.
pub fn long(random: &mut Random) -> Vec<u8> {
    let count = random.pick(&[300, 3000, 30_000]);
    let many = |part: &str| part.repeat(count);
    match random.below(12) {
        0 => format!("c0 goto {}", many("(")),
        1 => format!("c0 goto {}0{}", many("("), many(")")),
        2 => format!("c0 goto 0{}", many("+(1)-1")),
        3 => format!("c0 goto 1{}", many("*1")),
        4 => format!("c0 goto {}5", many("0")),
        5 => format!("c0 goto {}", many("7")),
        6 => format!("{0}: c0 goto {0}", many("x")),
        7 => format!("{0}: c0 goto {0}y", many("x")),
        8 => format!("{}c0 stop", many(" \t\r")),
        9 => many("\0"),
        10 => {
            let labels: String = (0..count / 10).map(|index| format!("L{index}:\n")).collect();
            format!("c0 goto L{}*2000+L0;;\n{labels}c0 stop\n", count / 10 - 1)
        }
        _ => {
            let operations = many("c0 nop\n");
            format!("c0 ldw $r0.1 = inside-{count}[$r0.0]\ninside:\n{operations};;")
        }
    }
    .into_bytes()
}
