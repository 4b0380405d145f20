//! Document 01's program: lines of hexadecimal in, lines of hexadecimal out.

use std::io::{self, BufRead, Write};

use crate::calls;
use crate::frame::{LOGICAL, MAX_BYTES, MAX_NODES, PHYSICAL};
use crate::nodes::Node;
use crate::refusal::Refusal;
use crate::settings::Settings;

const EXTRACT: u8 = 0x21;
const EXCHANGE: u8 = 0x22;

pub struct Program {
    n: usize,
    buffer: Vec<u8>,
    scratch: Vec<u8>,
    table: Vec<Node>,
}

impl Default for Program {
    fn default() -> Self {
        Program {
            n: 0,
            buffer: vec![0; MAX_BYTES],
            scratch: vec![0; MAX_BYTES],
            table: vec![Node::default(); MAX_NODES],
        }
    }
}

impl Program {
    /// The line out for a line in, both without the line feed.
    pub fn answer(&mut self, line: &[u8]) -> Vec<u8> {
        match parse(line).and_then(|frame| self.call(&frame)) {
            Ok(bytes) => hex(&[&[0], &bytes[..]].concat()),
            Err(refusal) => hex(&[refusal.number()]),
        }
    }

    fn call(&mut self, frame: &[u8]) -> Result<Vec<u8>, Refusal> {
        let Program {
            n,
            buffer,
            scratch,
            table,
        } = self;
        match frame {
            [] => return Err(Refusal::FrameLength),
            [PHYSICAL, ..] => calls::load(frame, n, buffer, table)?,
            [LOGICAL, ..] => return calls::logical(frame).map(Vec::from),
            [EXTRACT] => calls::extract(n, buffer, scratch, table, Settings::OF_THE_PROGRAM)?,
            [EXCHANGE] => calls::exchange(n, buffer, scratch)?,
            [EXTRACT | EXCHANGE, ..] => return Err(Refusal::BytesAfter),
            _ => return Err(Refusal::FirstByte),
        };
        Ok(buffer[..*n].to_vec())
    }
}

/// The bytes of a line. Only the small letters are digits.
pub fn parse(line: &[u8]) -> Result<Vec<u8>, Refusal> {
    if line.len() % 2 == 1 || line.len() > 2 * MAX_BYTES {
        return Err(Refusal::BadLine);
    }
    let byte = |pair: &[u8]| Some(16 * digit(pair[0])? + digit(pair[1])?);
    let bytes: Option<Vec<u8>> = line.chunks_exact(2).map(byte).collect();
    bytes.ok_or(Refusal::BadLine)
}

fn digit(character: u8) -> Option<u8> {
    match character {
        b'0'..=b'9' => Some(character - b'0'),
        b'a'..=b'f' => Some(character - b'a' + 10),
        _ => None,
    }
}

pub fn hex(bytes: &[u8]) -> Vec<u8> {
    const DIGITS: &[u8; 16] = b"0123456789abcdef";
    let digits = |byte: &u8| {
        [
            DIGITS[usize::from(byte / 16)],
            DIGITS[usize::from(byte % 16)],
        ]
    };
    bytes.iter().flat_map(digits).collect()
}

/// Answers every line of the input; the last one may lack its line feed.
pub fn run(mut input: impl BufRead, mut output: impl Write) -> io::Result<()> {
    let mut program = Program::default();
    let mut line = Vec::new();
    while input.read_until(b'\n', &mut line)? > 0 {
        let text = line.strip_suffix(b"\n").unwrap_or(&line);
        output.write_all(&program.answer(text))?;
        output.write_all(b"\n")?;
        line.clear();
    }
    output.flush()
}
