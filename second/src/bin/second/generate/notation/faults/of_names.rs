//! 18 by clusters and names.

use super::super::operations::{self, Op, Part, MOV};
use super::super::{Line, Page, Token};
use super::{name_position, operation, token, Fault};
use crate::generate::random::Random;

pub const FAULTS: [Fault; 11] = [
    falling_cluster,
    falling_cluster,
    falling_cluster,
    no_cluster,
    another_cluster,
    upper_case,
    unknown_name,
    glued,
    left_out_of_the_manual,
    front_of_mov,
    letter_changed,
];

fn any(_: &Op) -> bool {
    true
}

/// An operation whose cluster is below that of the one before it.
fn falling_cluster(random: &mut Random, page: &mut Page, at: usize) {
    let above = |line: &Line| line.op.as_ref().map_or(0, |op| op.cluster);
    if let Some(at) = page.find(at, |line| above(line) > 0 && !line.ends()) {
        let cluster = random.below(above(&page.lines[at]));
        let mut line = Line::of(operations::any(random, cluster, &page.labels));
        if random.percent(40) {
            line.back.push(token(";;"));
        }
        page.lines.insert(at + 1, line);
    }
}

fn no_cluster(_: &mut Random, page: &mut Page, at: usize) {
    if let Some(op) = operation(page, at, any) {
        op.parts.remove(0);
    }
}

fn another_cluster(random: &mut Random, page: &mut Page, at: usize) {
    if let Some(op) = operation(page, at, any) {
        let cluster =
            ["c4", "c9", "c", "c00", "c01", "C0", "0", "c0.", "c0?", "c_0", "c-0", "$c0", "c0 c0", "d0", "c 0", "c10"];
        op.parts[0] = Part::Token(token(random.pick(&cluster)));
    }
}

/// Everything but labels is lower case.
fn upper_case(random: &mut Random, page: &mut Page, at: usize) {
    if let Some(op) = operation(page, at, any) {
        let at = random.index(op.parts.len());
        let change = |token: &mut Token| token.iter_mut().for_each(|byte| byte.make_ascii_uppercase());
        match &mut op.parts[at] {
            Part::Token(token) => change(token),
            Part::Value(..) => {
                let name = name_position(op);
                if let Part::Token(token) = &mut op.parts[name] {
                    change(token);
                }
            }
        }
    }
}

fn unknown_name(random: &mut Random, page: &mut Page, at: usize) {
    if let Some(op) = operation(page, at, any) {
        let names = [
            "ad", "addd", "add.", "add?", "_add", "cmp", "cmpeqq", "slctt", "ld", "st", "stbu", "sh0add", "sh5add",
            "shl1", "brt", "goto.", "jump", "mpyl", "mpyhlu", "subc", "neg", "not", "a", "loop", "c0", "c1", "copyy",
            "returns", "halt", "5", "=",
        ];
        let at = name_position(op);
        op.parts[at] = Part::Token(token(random.pick(&names)));
    }
}

/// Two tokens that are read as one.
fn glued(random: &mut Random, page: &mut Page, at: usize) {
    if let Some(op) = operation(page, at, |op| op.parts.len() > 1) {
        let at = random.weighted(&[(2, 0), (1, name_position(op))]).min(op.parts.len() - 2);
        let next = op.parts.remove(at + 1);
        let next = Op { cluster: 0, parts: vec![next] }.tokens();
        if let Part::Token(token) = &mut op.parts[at] {
            token.extend(next.concat());
        }
    }
}

/// What the manual has and order 2 does not read.
fn left_out_of_the_manual(random: &mut Random, page: &mut Page, at: usize) {
    let words = [
        "c0 xnop 1",
        "xnop 1",
        "c0 xnop",
        "c0 orl $b0.0 = $r0.1 , $r0.2",
        "c0 andl $r0.3 = $r0.1 , $r0.2",
        "c0 igoto $l0.0",
        "c0 icall $l0.0 = $l0.0",
        "c0 rfi",
        "c0 send $r0.1 , 0",
        "c0 recv $r0.1 = 0",
        "c0 pft 0 [ $r0.1 ]",
        "c0 mov $r0.1 = $r0.2",
        "c0 return $r0.1 = $r0.1 , 32 , $l0.0",
        "c0 return",
        "c0 return $l0.0 = 0",
        "c0 return $r0.1",
        "c0 call f",
        "c0 call $l0.0",
        "c0 call $l0.0 , 0",
        "c0 call $r0.1 = 0",
        "c0 mpyh $r0.1 = $r0.2 , $r0.3",
        "c0 divs $r0.1 , $b0.1 = $b0.1 , $r0.2 , $r0.3",
        "c0 ldw.d $r0.1 = 0 [ $r0.2 ]",
        "c0 ldh.s $r0.1 = 0 [ $r0.2 ]",
        "c0 ldbu.l $r0.1 = 0 [ $r0.2 ]",
        "c0 ldw.d.s $r0.1 = 0 [ $r0.2 ]",
        "c0 stw.s 0 [ $r0.2 ] = $r0.1",
        "c0 ldw .d $r0.1 = 0 [ $r0.2 ]",
        "c0 br $b0.0 0",
        "c0 br 0 , $b0.0",
        "c0 goto",
        "c0 goto $l0.0",
        "c0 slct $r0.1 = $b0.2 , $r0.3 , 4",
        "c0 slctf $r0.1 = $b0.2 , $r0.3 , x",
        "c0 slct $r0.1 = $b0.2 , 3 , $r0.4",
        "c0 addcg $r0.1 , $b0.2 = $b0.3 , $r0.4 , 5",
        "c0 sxtb $r0.1 = 5",
        "c0 nop 1",
        "c0 nop $r0.0",
        "c0 stop 0",
        "c0 stop $l0.0",
        "c0 copy $r0.1 = 5",
        "c0 copy $r0.1 = $b0.1",
        "c0 copy $b0.1 = $r0.1",
        "c0 add $r0.1 = $r0.2",
        "c0 add = $r0.1 , $r0.2",
        "c0 ldw $r0.1 = [ $r0.2 ]",
        "c0 ldw $r0.1 = $r0.2",
        "c0 ldw $r0.1 = 4 ( $r0.2 )",
        "c0 ldw $r0.1 = $r0.2 [ 4 ]",
        "c0 ldw 4 [ $r0.2 ] = $r0.1",
        "c0 stw $r0.1 = 4 [ $r0.2 ]",
        "c0 stw 4 [ $r0.2 ] = 5",
        "c0 stw 4 [ $r0.2 ]",
        "c0",
        "c0 c0 nop",
    ];
    if let Some(op) = operation(page, at, any) {
        *op = Op::of_words(0, random.pick(&words));
    }
}

/// The second cluster in front: where it has no place, or before mov missing, another, or none at all.
fn front_of_mov(random: &mut Random, page: &mut Page, at: usize) {
    let labels = page.labels.clone();
    let Some(op) = operation(page, at, any) else {
        return;
    };
    if random.percent(30) {
        let from = token(random.pick(&["c0", "c1", "c2", "c3"]));
        op.parts.splice(1..1, [Part::Token(token("=")), Part::Token(from)]);
        return;
    }
    *op = operations::one(random, op.cluster, MOV, &labels);
    match random.below(6) {
        0 | 1 => op.parts[2] = Part::Token(token(&format!("c{}", random.below(4)))),
        2 => {
            op.parts.drain(1..3);
        }
        3 => op.parts[3] = Part::Token(token(random.pick(&["copy", "add", "nop", "goto"]))),
        4 => op.parts[2] = Part::Token(token(random.pick(&["c4", "0", "mov", "$r0.0", "="]))),
        _ => op.parts.swap(0, 2),
    }
}

fn letter_changed(random: &mut Random, page: &mut Page, at: usize) {
    if let Some(op) = operation(page, at, any) {
        let at = name_position(op);
        if let Part::Token(name) = &mut op.parts[at] {
            let index = random.index(name.len().max(1));
            match random.below(3) {
                _ if name.is_empty() => {}
                0 => name[index] = random.pick(b"abcdeglmnopqrstuw0_.?"),
                1 => name.insert(index, random.pick(b"abcdeglmnopqrstuw0_.?")),
                _ => {
                    name.remove(index);
                }
            }
        }
    }
}
