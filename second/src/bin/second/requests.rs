//! Requests and answers as they go over the process boundary: 4-byte big-endian words and plain bytes.

use second::{interface, source, syllable::Syllable, text, values};
use std::io::{self, Read, Write};

#[derive(Clone)]
pub struct Program {
    pub table: Vec<u8>,
    pub program: Vec<u8>,
    pub room: Vec<u8>,
}

#[derive(Clone)]
pub struct Run {
    pub table: Vec<u8>,
    pub program: Vec<u8>,
    pub state: Vec<u8>,
    pub memory: Vec<u8>,
    pub landing: Vec<u8>,
    pub n: u32,
    pub room: Vec<u8>,
}

#[derive(Clone)]
pub struct Assemble {
    pub text: Vec<u8>,
    pub program: Vec<u8>,
    pub room: Vec<u8>,
}

#[derive(Clone)]
pub enum Request {
    Values { s1: u32, s2: u32, b: u32, syllable: u32 },
    Load(Program),
    Check(Program),
    Run(Run),
    Text(Vec<u8>),
    Assemble(Assemble),
    Source(Vec<u8>),
}

const VALUES_WORDS: usize = 138;

impl Request {
    /// The header of 8 words, then the byte strings without padding.
    pub fn write(&self, to: &mut dyn Write) -> io::Result<()> {
        let length = |bytes: &[u8]| bytes.len() as u32;
        let (header, strings): (Vec<u32>, Vec<&[u8]>) = match self {
            Request::Values { s1, s2, b, syllable } => (vec![1, *s1, *s2, *b, *syllable], vec![]),
            Request::Load(call) | Request::Check(call) => {
                let kind = if matches!(self, Request::Load(_)) { 2 } else { 3 };
                (
                    vec![kind, length(&call.table), length(&call.program), length(&call.room)],
                    vec![&call.table, &call.program, &call.room],
                )
            }
            Request::Run(call) => (
                vec![
                    4,
                    length(&call.table),
                    length(&call.program),
                    length(&call.state),
                    length(&call.memory),
                    length(&call.landing),
                    call.n,
                    length(&call.room),
                ],
                vec![&call.table, &call.program, &call.state, &call.memory, &call.landing, &call.room],
            ),
            Request::Text(input) => (vec![5, length(input)], vec![input]),
            Request::Assemble(call) => (
                vec![6, length(&call.text), length(&call.program), length(&call.room)],
                vec![&call.text, &call.program, &call.room],
            ),
            Request::Source(input) => (vec![7, length(input)], vec![input]),
        };
        for index in 0..8 {
            to.write_all(&header.get(index).copied().unwrap_or(0).to_be_bytes())?;
        }
        for string in strings {
            to.write_all(string)?;
        }
        Ok(())
    }

    /// The next request of a stream, or none at its end.
    pub fn read(from: &mut dyn Read) -> io::Result<Option<Request>> {
        let mut first = [0; 1];
        if from.read(&mut first)? == 0 {
            return Ok(None);
        }
        let mut header = [0; 32];
        header[0] = first[0];
        from.read_exact(&mut header[1..])?;
        let word = |at: usize| {
            u32::from_be_bytes([header[4 * at], header[4 * at + 1], header[4 * at + 2], header[4 * at + 3]])
        };
        let mut string = |length: u32| read_bytes(from, length as usize);
        Ok(Some(match word(0) {
            1 => Request::Values { s1: word(1), s2: word(2), b: word(3), syllable: word(4) },
            2 | 3 => {
                let call = Program { table: string(word(1))?, program: string(word(2))?, room: string(word(3))? };
                if word(0) == 2 {
                    Request::Load(call)
                } else {
                    Request::Check(call)
                }
            }
            4 => Request::Run(Run {
                table: string(word(1))?,
                program: string(word(2))?,
                state: string(word(3))?,
                memory: string(word(4))?,
                landing: string(word(5))?,
                n: word(6),
                room: string(word(7))?,
            }),
            5 => Request::Text(string(word(1))?),
            6 => Request::Assemble(Assemble {
                text: string(word(1))?,
                program: string(word(2))?,
                room: string(word(3))?,
            }),
            7 => Request::Source(string(word(1))?),
            kind => return Err(io::Error::new(io::ErrorKind::InvalidData, format!("no request kind {kind}"))),
        }))
    }

    /// The answer this program gives.
    pub fn answer(&self) -> Vec<u8> {
        match self.clone() {
            Request::Values { s1, s2, b, syllable } => values_answer(s1, s2, b, Syllable(syllable)),
            Request::Load(mut call) => {
                let number = interface::load(&call.table, &call.program, &mut call.room);
                [&number.to_be_bytes()[..], &call.room].concat()
            }
            Request::Check(mut call) => {
                let number = interface::check(&call.table, &call.program, &mut call.room);
                [&number.to_be_bytes()[..], &call.room].concat()
            }
            Request::Run(mut call) => {
                let number = interface::run(
                    &call.table,
                    &call.program,
                    &mut call.state,
                    &mut call.memory,
                    &call.landing,
                    call.n,
                    &mut call.room,
                );
                [&number.to_be_bytes()[..], &call.room, &call.state, &call.memory].concat()
            }
            Request::Text(input) => with_length(&text::text(&input)),
            Request::Assemble(mut call) => {
                let number = interface::assemble(&call.text, &mut call.program, &mut call.room);
                [&number.to_be_bytes()[..], &call.room, &call.program].concat()
            }
            Request::Source(input) => with_length(&source::source(&input)),
        }
    }

    /// Reads the other side's answer, whose length follows from the request.
    pub fn read_answer(&self, from: &mut dyn Read) -> io::Result<Vec<u8>> {
        let mut answer = Vec::new();
        for (_, length) in self.fields() {
            answer.extend(read_bytes(from, length)?);
        }
        if self.has_output() {
            let length = u32::from_be_bytes([answer[0], answer[1], answer[2], answer[3]]);
            answer.extend(read_bytes(from, length as usize)?);
        }
        Ok(answer)
    }

    /// Whether the answer is a program's output.
    pub fn has_output(&self) -> bool {
        matches!(self, Request::Text(_) | Request::Source(_))
    }

    /// The names and lengths of an answer's fields; a program's output follows them.
    pub fn fields(&self) -> Vec<(&'static str, usize)> {
        match self {
            Request::Values { .. } => vec![("values", 4 * VALUES_WORDS)],
            Request::Load(call) | Request::Check(call) => vec![("result", 4), ("room", call.room.len())],
            Request::Run(call) => vec![
                ("result", 4),
                ("room", call.room.len()),
                ("state", call.state.len()),
                ("memory", call.memory.len()),
            ],
            Request::Assemble(call) => {
                vec![("result", 4), ("room", call.room.len()), ("program", call.program.len())]
            }
            Request::Text(_) | Request::Source(_) => vec![("output length", 4)],
        }
    }
}

fn with_length(output: &[u8]) -> Vec<u8> {
    [&(output.len() as u32).to_be_bytes()[..], output].concat()
}

fn read_bytes(from: &mut dyn Read, length: usize) -> io::Result<Vec<u8>> {
    let mut bytes = Vec::new();
    from.take(length as u64).read_to_end(&mut bytes)?;
    if bytes.len() < length {
        return Err(io::Error::new(io::ErrorKind::UnexpectedEof, "the stream ended early"));
    }
    Ok(bytes)
}

fn values_answer(s1: u32, s2: u32, b: u32, syllable: Syllable) -> Vec<u8> {
    let mut words = Vec::new();
    for operand in [s2, syllable.immediate()] {
        words.extend((0..64).map(|opcode| values::value(opcode, s1, operand, b)));
    }
    words.push(values::carry(s1, s2, b));
    words.push(values::address(s1, syllable.offset()));
    for opcode in 52..=56 {
        let bytes = s1.to_be_bytes();
        words.push(values::loaded(opcode, &bytes[4 - values::access_size(opcode)..]));
    }
    for opcode in 57..=59 {
        let bytes = values::stored(opcode, s1);
        words.push(bytes.iter().fold(0, |sum, &byte| sum << 8 | u32::from(byte)));
    }
    assert_eq!(words.len(), VALUES_WORDS);
    words.iter().flat_map(|word| word.to_be_bytes()).collect()
}

#[cfg(test)]
mod tests {
    use super::*;

    fn written(request: &Request) -> Vec<u8> {
        let mut bytes = Vec::new();
        request.write(&mut bytes).unwrap();
        bytes
    }

    #[test]
    fn a_request_has_8_words_and_its_strings() {
        let request = Request::Load(Program { table: vec![1, 2], program: vec![3], room: vec![4, 5, 6] });
        let header = [0, 0, 0, 2, 0, 0, 0, 2, 0, 0, 0, 1, 0, 0, 0, 3];
        assert_eq!(written(&request), [&header[..], &[0; 16], &[1, 2, 3, 4, 5, 6]].concat());
    }

    #[test]
    fn requests_come_back() {
        let run = Run {
            table: vec![1],
            program: vec![2, 2],
            state: vec![3; 3],
            memory: vec![4; 4],
            landing: vec![],
            n: 0xFFFF_FFFE,
            room: vec![6; 12],
        };
        let requests = [
            Request::Values { s1: 1, s2: 2, b: 1, syllable: 3 },
            Request::Check(Program { table: vec![], program: vec![9; 5], room: vec![] }),
            Request::Run(run),
            Request::Text(b"00\n".to_vec()),
            Request::Assemble(Assemble { text: b"c0 nop".to_vec(), program: vec![7; 9], room: vec![8; 11] }),
            Request::Source(b"c0 nop".to_vec()),
        ];
        let stream: Vec<u8> = requests.iter().flat_map(written).collect();
        let mut rest = &stream[..];
        for request in &requests {
            let read = Request::read(&mut rest).unwrap().unwrap();
            assert_eq!(written(&read), written(request));
        }
        assert!(Request::read(&mut rest).unwrap().is_none());
    }

    #[test]
    fn values_stand_where_they_should() {
        // s1 = FFFFFFFF, s2 = 1, b = 1, syllable with immediate and offset -2.
        let answer = Request::Values { s1: 0xFFFF_FFFF, s2: 1, b: 1, syllable: 0xFFE }.answer();
        let word = |at: usize| {
            u32::from_be_bytes([answer[4 * at], answer[4 * at + 1], answer[4 * at + 2], answer[4 * at + 3]])
        };
        assert_eq!(answer.len(), 4 * 138);
        assert_eq!((word(0), word(1), word(2), word(23)), (0, 0, 2, 1));
        assert_eq!((word(50), word(51), word(52), word(63)), (0xFFFF_FFFF, 1, 0, 0));
        assert_eq!((word(64 + 1), word(64 + 2)), (0xFFFF_FFFD, 0xFFFF_FFFF));
        assert_eq!((word(128), word(129)), (1, 0xFFFF_FFFD));
        assert_eq!((130..135).map(word).collect::<Vec<_>>(), [0xFFFF_FFFF, 0xFFFF_FFFF, 0xFFFF, 0xFFFF_FFFF, 0xFF]);
        assert_eq!((135..138).map(word).collect::<Vec<_>>(), [0xFFFF_FFFF, 0xFFFF, 0xFF]);
    }
}
