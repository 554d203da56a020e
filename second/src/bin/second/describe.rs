//! Calls and differences for people to read.

use crate::requests::Request;
use second::state::State;

/// The first byte that differs, with its field and index.
pub fn difference(request: &Request, own: &[u8], other: &[u8]) -> String {
    let mut fields = request.fields();
    if request.has_output() {
        fields.push(("output", own.len().max(other.len()) - 4));
    }
    let mut start = 0;
    for (name, length) in fields {
        for index in 0..length {
            let (mine, theirs) = (own.get(start + index), other.get(start + index));
            if mine != theirs {
                let byte = |byte: Option<&u8>| byte.map_or("none".to_string(), |byte| format!("{byte:02X}"));
                return format!(
                    "differs in {name}, index {index}{}: here {}, there {}\n{}",
                    meaning(request, name, index),
                    byte(mine),
                    byte(theirs),
                    heads(request, own, other),
                );
            }
        }
        start += length;
    }
    "the lengths differ\n".to_string()
}

/// What stands at an index of a field.
fn meaning(request: &Request, name: &str, index: usize) -> String {
    match (request, name) {
        (Request::Values { .. }, _) => match index / 4 {
            opcode @ 0..=63 => format!(" (opcode {opcode})"),
            word @ 64..=127 => format!(" (opcode {}, immediate)", word - 64),
            128 => " (addcg's carry)".to_string(),
            129 => " (address)".to_string(),
            word @ 130..=134 => format!(" (load, opcode {})", word - 130 + 52),
            word => format!(" (store, opcode {})", word - 135 + 57),
        },
        (_, "room") => format!(" ({})", ["number", "count", "place"].get(index / 4).unwrap_or(&"")),
        (_, "program") => format!(" (syllable {})", index / 4),
        (_, "state") if index < 4 => " (place)".to_string(),
        (_, "state") if index >= second::load::IMAGE_SIZE - 4 => " (link)".to_string(),
        (_, "state") => {
            let (cell, byte) = ((index - 4) / 10, (index - 4) % 10);
            let part = match byte {
                0..=3 => "value",
                4..=7 => "waiting",
                8 => "busy",
                _ => "landing",
            };
            format!(" ({} {part})", register(cell))
        }
        _ => String::new(),
    }
}

/// The start of both answers: for load, check, run and assemble the result and the room's words.
fn heads(request: &Request, own: &[u8], other: &[u8]) -> String {
    match request {
        Request::Values { .. } => String::new(),
        Request::Text(_) | Request::Source(_) => format!("here:\n{}there:\n{}", lines(&own[4..]), lines(&other[4..])),
        _ => {
            let head = |answer: &[u8]| hex(&answer[..answer.len().min(16)], 16);
            format!("here {}\nthere {}\n", head(own), head(other))
        }
    }
}

/// Text as it stands, strange bytes and line ends made visible.
fn lines(bytes: &[u8]) -> String {
    bytes.escape_ascii().to_string().replace("\\n", "\\n\n")
}

pub fn register(cell: usize) -> String {
    if cell < 256 {
        format!("general {}.{}", cell / 64, cell % 64)
    } else {
        format!("branch {}.{}", (cell - 256) / 8, (cell - 256) % 8)
    }
}

/// All inputs of a call in hexadecimal, long ones shortened.
pub fn call(request: &Request) -> String {
    match request {
        Request::Values { s1, s2, b, syllable } => format!("values s1 {s1:08X} s2 {s2:08X} b {b} syllable {syllable:08X}\n"),
        Request::Load(call) | Request::Check(call) => {
            let name = if matches!(request, Request::Load(_)) { "load" } else { "check" };
            format!(
                "{name}\ntable {}\nprogram of {} bytes\n{}room of {} bytes\n",
                hex(&call.table, 64),
                call.program.len(),
                program(&call.program),
                call.room.len(),
            )
        }
        Request::Run(call) => format!(
            "run\ntable {}\nprogram of {} bytes\n{}state of {} bytes\n{}memory of {} bytes {}\nlanding of {} bytes {}\nn {:08X}\nroom of {} bytes\n",
            hex(&call.table, 64),
            call.program.len(),
            program(&call.program),
            call.state.len(),
            state(&call.state),
            call.memory.len(),
            hex(&call.memory, 256),
            call.landing.len(),
            hex(&call.landing, 64),
            call.n,
            call.room.len(),
        ),
        Request::Text(input) => format!("text of {} bytes\n{}\n", input.len(), shortened(input)),
        Request::Assemble(call) => format!(
            "assemble\ntext of {} bytes\n{}\nprogram of {} bytes\nroom of {} bytes\n",
            call.text.len(),
            shortened(&call.text),
            call.program.len(),
            call.room.len(),
        ),
        Request::Source(input) => format!("source of {} bytes\n{}\n", input.len(), shortened(input)),
    }
}

fn shortened(text: &[u8]) -> String {
    lines(&text[..text.len().min(4000)])
}

pub fn hex(bytes: &[u8], most: usize) -> String {
    let shown: Vec<String> = bytes.iter().take(most).map(|byte| format!("{byte:02X}")).collect();
    let rest = if bytes.len() > most { " .." } else { "" };
    format!("{}{rest}", shown.join(" "))
}

/// One instruction a line, with the place of its first syllable.
fn program(bytes: &[u8]) -> String {
    let mut lines = String::new();
    let mut line = String::new();
    for (place, chunk) in bytes.chunks(4).enumerate().take(400) {
        if line.is_empty() {
            line = format!("{place:5}:");
        }
        line += " ";
        for byte in chunk {
            line += &format!("{byte:02X}");
        }
        if chunk[0] >= 0x80 {
            lines += &format!("{line}\n");
            line.clear();
        }
    }
    if !line.is_empty() {
        lines += &format!("{line}\n");
    }
    if bytes.len() > 1600 {
        lines += "..\n";
    }
    lines
}

/// The place, the link and every register that is not all zero.
fn state(image: &[u8]) -> String {
    if image.len() != second::load::IMAGE_SIZE {
        return format!("{}\n", hex(image, 64));
    }
    let state = State::from_image(image);
    let mut lines = format!("  place {:08X} link {:08X}\n", state.place, state.link);
    for (index, cell) in state.cells.iter().enumerate() {
        if *cell != Default::default() {
            lines += &format!(
                "  {}: {:08X} waiting {:08X} busy {} landing {}\n",
                register(index),
                cell.value,
                cell.waiting,
                cell.busy,
                cell.landing
            );
        }
    }
    lines
}
