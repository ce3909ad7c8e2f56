//! From a line of a listing back to its address and bytes, as an assembler would read it.

use second::operations::{Form, OPERATIONS};

/// The address and the bytes of a line; nothing if it is not exactly a line.
pub fn assemble(text: &str) -> Option<(u32, Vec<u8>)> {
    let parts: Vec<&str> = text.strip_suffix('\n')?.split('\t').collect();
    let [address, name, operands] = parts[..] else {
        return None;
    };
    let address = digits(address, 6)?;
    if name == "DC" {
        let raw = operands.strip_prefix("X'")?.strip_suffix('\'')?;
        let value = digits(raw, raw.len())?;
        return match raw.len() {
            2 => Some((address, vec![value as u8])),
            4 => Some((address, (value as u16).to_be_bytes().to_vec())),
            _ => None,
        };
    }
    let row = OPERATIONS.iter().find(|row| row.name == name)?;
    let mut bytes = vec![row.code];
    bytes.extend(fields(row.form, operands)?);
    Some((address, bytes))
}

/// So many hexadecimal digits, capitals only.
fn digits(text: &str, count: usize) -> Option<u32> {
    let is_digit = |c: char| c.is_ascii_digit() || ('A'..='F').contains(&c);
    let is_whole = text.len() == count && text.chars().all(is_digit);
    is_whole.then(|| u32::from_str_radix(text, 16).ok())?
}

/// The bytes after the operation code.
fn fields(form: Form, operands: &str) -> Option<Vec<u8>> {
    let shape = match form {
        Form::RR => "n,n",
        Form::RX => "n,n(n,n)",
        Form::RS => "n,n,n(n)",
        Form::SI => "n(n),X'h'",
        Form::SS => "n(n,n),n(n)",
    };
    let (first, places) = match (form, &read(shape, operands)?[..]) {
        (Form::RR, &[r1, r2]) => (two(r1, r2)?, vec![]),
        (Form::RX, &[r1, d2, x2, b2]) => (two(r1, x2)?, vec![(b2, d2)]),
        (Form::RS, &[r1, r3, d2, b2]) => (two(r1, r3)?, vec![(b2, d2)]),
        (Form::SI, &[d1, b1, i2]) => (i2 as u8, vec![(b1, d1)]),
        (Form::SS, &[d1, count, b1, d2, b2]) if (1..=256).contains(&count) => {
            ((count - 1) as u8, vec![(b1, d1), (b2, d2)])
        }
        _ => return None,
    };
    let mut bytes = vec![first];
    for (base, displacement) in places {
        bytes.extend(place(base, displacement)?);
    }
    Some(bytes)
}

/// The figures of a text of this shape: `n` is a decimal number without leading zeros, `h` two hexadecimal digits.
fn read(shape: &str, text: &str) -> Option<Vec<u32>> {
    let mut figures = Vec::new();
    let mut rest = text;
    for sign in shape.chars() {
        let size = match sign {
            'n' => rest.chars().take_while(char::is_ascii_digit).count(),
            'h' => 2,
            _ => 1,
        };
        let (figure, after) = rest.split_at_checked(size)?;
        match sign {
            'n' if size > 1 && figure.starts_with('0') => return None,
            'n' => figures.push(figure.parse().ok()?),
            'h' => figures.push(digits(figure, 2)?),
            _ if figure.starts_with(sign) => {}
            _ => return None,
        }
        rest = after;
    }
    rest.is_empty().then_some(figures)
}

fn two(high: u32, low: u32) -> Option<u8> {
    (high < 16 && low < 16).then_some((high << 4 | low) as u8)
}

/// Base and displacement as two bytes.
fn place(base: u32, displacement: u32) -> Option<[u8; 2]> {
    let is_in_range = base < 16 && displacement < 4096;
    is_in_range.then(|| ((base << 12 | displacement) as u16).to_be_bytes())
}
