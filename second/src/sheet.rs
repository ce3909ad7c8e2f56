//! Reading a bench sheet.

/// What a well-formed sheet says.
#[derive(Clone, Debug, PartialEq, Eq)]
pub struct Sheet {
    pub pages: Vec<(usize, u16)>,
    pub bytes: Vec<(usize, Vec<u8>)>,
    pub registers: Vec<(usize, u32)>,
    pub counter: u32,
    pub code: u32,
    pub mask: u32,
    pub budget: u32,
}

pub const MEMORY: usize = 65_536;
pub const LARGEST_SHEET: usize = 65_536;

/// Where we are in the order of the lines.
#[derive(Clone, Copy, PartialEq, Eq, PartialOrd, Ord)]
enum Stage {
    Pages,
    Bytes,
    Registers,
    Started,
    Finished,
}

/// A sheet, or the number of its first bad line.
pub fn read(text: &[u8]) -> Result<Sheet, usize> {
    if text.len() > LARGEST_SHEET {
        return Err(0);
    }
    let mut sheet = Sheet {
        pages: Vec::new(),
        bytes: Vec::new(),
        registers: Vec::new(),
        counter: 0,
        code: 0,
        mask: 0,
        budget: 0,
    };
    let mut stage = Stage::Pages;
    let mut line_number = 0;
    let mut rest = text;
    while !rest.is_empty() {
        line_number += 1;
        let Some(end) = rest.iter().position(|&byte| byte == b'\n') else {
            return Err(line_number);
        };
        let line = &rest[..end];
        rest = &rest[end + 1..];
        stage = match read_line(line, stage, &mut sheet) {
            Some(next) => next,
            None => return Err(line_number),
        };
    }
    if stage == Stage::Finished {
        Ok(sheet)
    } else {
        Err(line_number + 1)
    }
}

/// Takes in one line; the stage after it, or nothing when it is bad.
fn read_line(line: &[u8], stage: Stage, sheet: &mut Sheet) -> Option<Stage> {
    let fields: Vec<&[u8]> = line.split(|&byte| byte == b'\t').collect();
    match (fields[0], &fields[1..]) {
        (b"PAGE", [page, word]) if stage <= Stage::Pages => {
            read_page(sheet, page, word)?;
            Some(Stage::Pages)
        }
        (b"BYTES", [address, content]) if stage <= Stage::Bytes => {
            read_bytes(sheet, address, content)?;
            Some(Stage::Bytes)
        }
        (b"REG", [number, value]) if stage <= Stage::Registers => {
            read_register(sheet, number, value)?;
            Some(Stage::Registers)
        }
        (b"START", [counter, code, mask]) if stage <= Stage::Registers => {
            sheet.counter = hexadecimal(counter, 6)?;
            sheet.code = decimal(code, 3)?;
            sheet.mask = decimal(mask, 15)?;
            Some(Stage::Started)
        }
        (b"RUN", [budget]) if stage == Stage::Started => {
            sheet.budget = decimal(budget, 65_535)?;
            Some(Stage::Finished)
        }
        _ => None,
    }
}

fn read_page(sheet: &mut Sheet, page: &[u8], word: &[u8]) -> Option<()> {
    let page = decimal(page, 511)? as usize;
    let word = hexadecimal(word, 4)? as u16;
    if sheet.pages.iter().any(|&(other, _)| other == page) {
        return None;
    }
    sheet.pages.push((page, word));
    Some(())
}

fn read_bytes(sheet: &mut Sheet, address: &[u8], content: &[u8]) -> Option<()> {
    let address = decimal(address, MEMORY as u32 - 1)? as usize;
    let content = byte_list(content)?;
    if address + content.len() > MEMORY {
        return None;
    }
    sheet.bytes.push((address, content));
    Some(())
}

fn read_register(sheet: &mut Sheet, number: &[u8], value: &[u8]) -> Option<()> {
    let number = decimal(number, 15)? as usize;
    let value = hexadecimal(value, 8)?;
    if sheet.registers.iter().any(|&(other, _)| other == number) {
        return None;
    }
    sheet.registers.push((number, value));
    Some(())
}

/// A decimal number without leading zeros, at most `largest`.
fn decimal(field: &[u8], largest: u32) -> Option<u32> {
    if field.is_empty() || (field.len() > 1 && field[0] == b'0') {
        return None;
    }
    let mut number: u32 = 0;
    for &byte in field {
        if !byte.is_ascii_digit() {
            return None;
        }
        // `number` is at most 65,535 here, so this stays small.
        number = number * 10 + u32::from(byte - b'0');
        if number > largest {
            return None;
        }
    }
    Some(number)
}

/// Exactly so many upper-case hex digits, at most eight.
fn hexadecimal(field: &[u8], digits: usize) -> Option<u32> {
    if field.len() != digits {
        return None;
    }
    let mut number: u32 = 0;
    for &byte in field {
        number = number * 16 + u32::from(hex_digit(byte)?);
    }
    Some(number)
}

/// One to thirty-two bytes, two hex digits each.
fn byte_list(field: &[u8]) -> Option<Vec<u8>> {
    if field.is_empty() || field.len() % 2 != 0 || field.len() > 64 {
        return None;
    }
    let mut content = Vec::new();
    for pair in field.chunks(2) {
        content.push(hex_digit(pair[0])? * 16 + hex_digit(pair[1])?);
    }
    Some(content)
}

fn hex_digit(byte: u8) -> Option<u8> {
    match byte {
        b'0'..=b'9' => Some(byte - b'0'),
        b'A'..=b'F' => Some(byte - b'A' + 10),
        _ => None,
    }
}
