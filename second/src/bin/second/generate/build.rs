//! Programs that load: every instruction keeps to the table.

use super::draft::{Draft, Part, CALL, NOP, RETURN, STOP};
use super::pairs::EDGE_FIELDS;
use super::random::Random;
use second::syllable::{Class, Register, Syllable};
use second::table::Table;
use second::values;
use std::ops::Range;

/// How a program is to look.
#[derive(Clone)]
pub struct Style {
    /// Registers below this are named, now and then any.
    pub registers: u32,
    pub branches: u32,
    /// The most syllables wanted in a cluster.
    pub crowd: u32,
    /// If the memory's length is known, most loads and stores hit it.
    pub memory: Option<usize>,
    /// So many instructions of a hundred have a goto, a branch, a call anywhere, or are stops or returns.
    pub gotos: u32,
    pub branchings: u32,
    pub calls: u32,
    pub stops: u32,
    pub returns: u32,
    /// So many programs of a hundred have subroutines, which are called from several places.
    pub subroutines: u32,
}

/// The last registers hold addresses where the memory's length is known; nobody writes them.
pub const FIRST_POINTER: u32 = 56;

impl Style {
    pub fn any(random: &mut Random) -> Style {
        Style {
            registers: random.pick(&[2, 4, 8, 16, 64, 64]),
            branches: random.pick(&[1, 2, 8, 8]),
            crowd: random.between(1, 8),
            memory: None,
            gotos: random.pick(&[2, 6, 15]),
            branchings: random.pick(&[5, 15, 40]),
            calls: random.pick(&[0, 3, 10]),
            stops: random.pick(&[0, 3, 10]),
            returns: random.pick(&[0, 0, 8]),
            subroutines: 25,
        }
    }

    fn register(&self, random: &mut Random) -> u32 {
        if random.percent(5) {
            random.below(64)
        } else {
            random.below(self.registers)
        }
    }

    fn destination(&self, random: &mut Random) -> u32 {
        let register = self.register(random);
        if self.memory.is_some() && register >= FIRST_POINTER {
            register - FIRST_POINTER
        } else {
            register
        }
    }

    fn branch(&self, random: &mut Random) -> u32 {
        random.below(self.branches)
    }
}

/// The control syllable that an instruction is to have.
#[derive(Clone, Copy, PartialEq, Eq)]
enum Control {
    Goto,
    Branch,
    Call,
    Stop,
    Return,
}

/// A program of so many instructions, the last a goto, a stop or a return; its subroutines come besides.
pub fn program(random: &mut Random, table: &Table, style: &Style, instructions: usize) -> Draft {
    let plan = Plan::new(random, style, instructions);
    let mut draft = Draft::default();
    for index in 0..plan.many() {
        let control = plan.control(random, style, index);
        let mut instruction = match control {
            Some(Control::Stop) => vec![Part::new(true, STOP)],
            Some(Control::Return) => vec![Part::new(true, RETURN)],
            _ => instruction(random, table, style, control),
        };
        for part in instruction.iter_mut().filter(|part| part.has_target()) {
            part.aim = Some(plan.aim(random, index, control));
        }
        draft.instructions.push(instruction);
    }
    draft
}

/// The stretches of a program: the main part, and subroutines behind it or before it.
struct Plan {
    main: Range<usize>,
    subroutines: Vec<Range<usize>>,
}

impl Plan {
    fn new(random: &mut Random, style: &Style, instructions: usize) -> Plan {
        let count = if random.percent(style.subroutines) { random.weighted(&[(3, 1), (2, 2), (1, 3)]) } else { 0 };
        let before = count > 0 && random.percent(25);
        // Before the main part they leave instruction 0 to a goto that leads to it.
        let mut at = if before { 1 } else { instructions };
        let mut subroutines = Vec::new();
        for _ in 0..count {
            let length = random.between(1, 5) as usize;
            subroutines.push(at..at + length);
            at += length;
        }
        let main = if before { at..at + instructions } else { 0..instructions };
        Plan { main, subroutines }
    }

    fn many(&self) -> usize {
        self.subroutines.iter().map(|stretch| stretch.end).fold(self.main.end, usize::max)
    }

    fn control(&self, random: &mut Random, style: &Style, index: usize) -> Option<Control> {
        if let Some(stretch) = self.subroutines.iter().find(|stretch| stretch.contains(&index)) {
            return match random.below(100) {
                _ if index == stretch.end - 1 => Some(Control::Return),
                // After a call in here the return leads back behind it, again and again.
                0..=6 => Some(Control::Call),
                7..=14 => Some(Control::Branch),
                chance if chance < 15 + style.stops => Some(Control::Stop),
                _ => None,
            };
        }
        if !self.main.contains(&index) {
            return Some(Control::Goto);
        }
        if index == self.main.end - 1 {
            return Some(random.weighted(&[(66, Control::Stop), (28, Control::Goto), (6, Control::Return)]));
        }
        let calls = if self.subroutines.is_empty() { style.calls } else { 35 };
        let chances = [
            (style.gotos, Control::Goto),
            (style.branchings, Control::Branch),
            (calls, Control::Call),
            (style.stops, Control::Stop),
            (style.returns, Control::Return),
        ];
        let mut left = random.below(100);
        for (chance, control) in chances {
            if left < chance {
                return Some(control);
            }
            left -= chance;
        }
        None
    }

    /// The instruction a target names: mostly one further on in its stretch, of a call the first one of a subroutine.
    fn aim(&self, random: &mut Random, index: usize, control: Option<Control>) -> usize {
        if control == Some(Control::Call) && !self.subroutines.is_empty() && random.percent(90) {
            return self.subroutines[random.index(self.subroutines.len())].start;
        }
        let own = self.subroutines.iter().find(|stretch| stretch.contains(&index)).unwrap_or(&self.main);
        if index < own.start {
            return own.start;
        }
        if index + 1 < own.end && random.percent(65) {
            index + 1 + random.index(own.end - index - 1)
        } else if random.percent(80) {
            own.start + random.index(own.len())
        } else {
            random.index(self.many())
        }
    }
}

/// What an instruction may still take.
struct Left {
    alu: Vec<u32>,
    mul: Vec<u32>,
    mem: Vec<u32>,
    copy: Vec<u32>,
    destinations: Vec<Register>,
}

/// An instruction that keeps to the table, with the control syllable asked for, whose aim is left open.
fn instruction(random: &mut Random, table: &Table, style: &Style, control: Option<Control>) -> Vec<Part> {
    let count = |of: fn(&second::table::Cluster) -> u32| table.clusters.iter().map(of).collect::<Vec<u32>>();
    let mut left = Left {
        alu: count(|cluster| cluster.alu),
        mul: count(|cluster| cluster.mul),
        mem: count(|cluster| cluster.mem),
        copy: count(|cluster| cluster.copy),
        destinations: Vec::new(),
    };
    let opened = random.between(1, table.clusters.len() as u32);
    let mut instruction = Vec::new();
    for cluster in 0..opened {
        let width = table.clusters[cluster as usize].width;
        let wanted = random.between(1, width.min(style.crowd));
        let control_at = if cluster == 0 && control.is_some() { random.below(wanted) } else { wanted };
        for index in 0..wanted {
            let word = match control {
                Some(control) if index == control_at => control_word(random, style, control),
                _ => operation(random, style, cluster, &mut left),
            };
            instruction.push(Part::new(index == 0, word));
        }
    }
    instruction
}

fn control_word(random: &mut Random, style: &Style, control: Control) -> u32 {
    match control {
        Control::Goto => 61 << 24,
        Control::Branch => random.pick(&[62, 63]) << 24 | style.branch(random) << 21,
        Control::Call => CALL,
        Control::Stop => STOP,
        Control::Return => RETURN,
    }
}

/// An operation that still fits, or a nop.
fn operation(random: &mut Random, style: &Style, cluster: u32, left: &mut Left) -> u32 {
    if random.percent(6) {
        return NOP;
    }
    for _ in 0..8 {
        let opcode = opcode(random);
        let word = word(random, style, opcode, cluster, left.copy.len() as u32);
        let syllable = Syllable(word);
        let mine = cluster as usize;
        let source = syllable.copy_source() as usize;
        let fits = match syllable.class() {
            Class::Alu => left.alu[mine] > 0,
            Class::Mul => left.mul[mine] > 0,
            Class::Mem => left.mem[mine] > 0,
            Class::Copy => source < left.copy.len() && source != mine && left.copy[mine] > 0 && left.copy[source] > 0,
            _ => true,
        };
        let destinations = syllable.destinations(cluster);
        if !fits || destinations.iter().any(|register| left.destinations.contains(register)) {
            continue;
        }
        match syllable.class() {
            Class::Alu => left.alu[mine] -= 1,
            Class::Mul => left.mul[mine] -= 1,
            Class::Mem => left.mem[mine] -= 1,
            Class::Copy => {
                left.copy[mine] -= 1;
                left.copy[source] -= 1;
            }
            _ => {}
        }
        left.destinations.extend(destinations);
        return word;
    }
    NOP
}

/// Any operation; the rarer classes get their share.
fn opcode(random: &mut Random) -> u32 {
    match random.below(10) {
        0..=5 => random.between(1, 60),
        6 => random.between(24, 29),
        7 => random.between(52, 59),
        8 => 60,
        _ => random.pick(&[23, 50, 51, 40, 45]),
    }
}

/// A syllable's bits 29..0: every named field filled, every other bit zero.
pub fn word(random: &mut Random, style: &Style, opcode: u32, cluster: u32, c: u32) -> u32 {
    let t = style.destination(random) << 18;
    let s1 = style.register(random) << 12;
    let s2 = style.register(random);
    let fields = match opcode {
        1..=18 | 24..=39 => t | s1 | second_operand(random, style),
        19..=22 => t | s1,
        23 => t | s1 | style.branch(random) << 9 | style.branch(random) << 6 | s2,
        40..=49 => style.branch(random) << 18 | s1 | second_operand(random, style),
        50 | 51 => t | s1 | style.branch(random) << 9 | s2,
        52..=56 => t | base_and_offset(random, style, opcode),
        57..=59 => style.register(random) << 18 | base_and_offset(random, style, opcode),
        60 => t | s1 | ((cluster + random.below(4)) % c.max(1)),
        _ => 0,
    };
    opcode << 24 | fields
}

/// A register in bits 5..0, or bit 11 and an immediate.
fn second_operand(random: &mut Random, style: &Style) -> u32 {
    match random.below(4) {
        0 | 1 => style.register(random),
        2 => 0x800 | random.pick(&EDGE_FIELDS) & 0x7FF,
        _ => 0x800 | random.below(0x800),
    }
}

fn base_and_offset(random: &mut Random, style: &Style, opcode: u32) -> u32 {
    let size = values::access_size(opcode) as u32;
    let anything = style.register(random) << 12 | random.below(0x1000);
    let Some(length) = style.memory else { return anything };
    let fitting = (length as u32 / size).min(2048 / size);
    if fitting == 0 || random.percent(4) {
        return anything;
    }
    if random.percent(50) {
        return random.below(fitting) * size;
    }
    let pointer = random.between(FIRST_POINTER, 63);
    let near = random.between(0, 4) * size;
    pointer << 12 | if random.percent(50) { near } else { near.wrapping_neg() & 0xFFF }
}
