//! The listing: code bytes as text, one instruction a line.
//!
//! A line is address, operation name and operands, parted by tabs and ended by
//! a line feed. Bytes that are no instruction have the name DC.

use crate::operations::{find, length, Form, Operation};

/// Addresses lie below this and wrap at it.
pub const ADDRESSES: u32 = 1 << 24;

/// The answer to a start that is no address.
pub const OUT_OF_RANGE: u32 = 6;

/// One line and the bytes that it stands for.
#[derive(Clone, Debug, PartialEq, Eq)]
pub struct Line<'a> {
    pub address: u32,
    pub bytes: &'a [u8],
    pub text: String,
}

/// What `list` answers.
#[derive(Clone, Copy, Debug, Default, PartialEq, Eq)]
pub struct Listed {
    pub number: u32,
    pub lines: usize,
    /// Index of the code byte to go on from.
    pub next: usize,
    /// How many bytes of the output the lines take.
    pub written: usize,
}

/// Lists code that starts at this address, as far as whole lines fit.
pub fn list(code: &[u8], start: u32, out: &mut [u8]) -> Listed {
    let mut listed = Listed::default();
    if start >= ADDRESSES {
        listed.number = OUT_OF_RANGE;
        return listed;
    }
    while listed.next < code.len() {
        let line = line(code, start, listed.next);
        let end = listed.written + line.text.len();
        if end > out.len() {
            break;
        }
        out[listed.written..end].copy_from_slice(line.text.as_bytes());
        listed.lines += 1;
        listed.next += line.bytes.len();
        listed.written = end;
    }
    listed
}

/// All lines of code that starts at this address.
pub fn lines(code: &[u8], start: u32) -> Vec<Line<'_>> {
    let mut all = Vec::new();
    let mut place = 0;
    while place < code.len() {
        let line = line(code, start, place);
        place += line.bytes.len();
        all.push(line);
    }
    all
}

/// The line of the code byte at this index.
fn line(code: &[u8], start: u32, place: usize) -> Line<'_> {
    let left = &code[place..];
    let address = (u64::from(start) + place as u64) % u64::from(ADDRESSES);
    let (name, operands, bytes) = match instruction(left) {
        Some(row) => {
            let bytes = &left[..length(row.code) as usize];
            (row.name, operands(row.form, bytes), bytes)
        }
        None => {
            let bytes = &left[..left.len().min(2)];
            ("DC", raw(bytes), bytes)
        }
    };
    Line {
        address: address as u32,
        bytes,
        text: format!("{address:06X}\t{name}\t{operands}\n"),
    }
}

/// The operation of the instruction that stands here, if the set has it
/// and the code does not end within it.
fn instruction(left: &[u8]) -> Option<Operation> {
    let row = find(left[0])?;
    (length(row.code) as usize <= left.len()).then_some(row)
}

/// Every field of an instruction, those that it ignores as well.
fn operands(form: Form, bytes: &[u8]) -> String {
    let second = bytes[1];
    let (high, low) = (second >> 4, second & 15);
    match form {
        Form::RR => format!("{high},{low}"),
        Form::RX => {
            let (base, displacement) = field(bytes, 2);
            format!("{high},{displacement}({low},{base})")
        }
        Form::RS => {
            let (base, displacement) = field(bytes, 2);
            format!("{high},{low},{displacement}({base})")
        }
        Form::SI => {
            let (base, displacement) = field(bytes, 2);
            format!("{displacement}({base}),X'{second:02X}'")
        }
        Form::SS => {
            let (base1, displacement1) = field(bytes, 2);
            let (base2, displacement2) = field(bytes, 4);
            let count = u32::from(second) + 1;
            format!("{displacement1}({count},{base1}),{displacement2}({base2})")
        }
    }
}

/// Base and displacement of the two bytes at an index.
fn field(bytes: &[u8], at: usize) -> (u16, u16) {
    let word = u16::from_be_bytes([bytes[at], bytes[at + 1]]);
    (word >> 12, word & 0xFFF)
}

/// Bytes that are no instruction.
fn raw(bytes: &[u8]) -> String {
    let digits: String = bytes.iter().map(|byte| format!("{byte:02X}")).collect();
    format!("X'{digits}'")
}
