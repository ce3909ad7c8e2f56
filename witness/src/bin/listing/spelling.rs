//! From objdump's spelling to the listing's. README.md lists the differences, and why they are there.

use crate::told::{SHIFTS, UNTOLD};

/// What objdump writes for BC with each mask; for BCR an `r` follows.
const CONDITIONS: [&str; 16] = [
    "nop", "bo", "bh", "bnle", "bl", "bnhe", "blh", "bne", "be", "bnlh", "bhe", "bnl", "ble",
    "bnh", "bno", "b",
];

/// Name and operands in the listing's spelling; as they are, where there is no rule for them.
pub fn spell(bytes: &[u8], name: &str, operands: &str) -> (String, String) {
    let parts = apart(operands);
    if let Some((name, mask)) = condition(name) {
        let target = match (name, parts.first()) {
            ("BC", Some(place)) => indexed(place),
            (_, Some(register)) => figure(register).to_string(),
            (_, None) => "0".to_string(),
        };
        return (name.to_string(), format!("{mask},{target}"));
    }
    let is_shift = SHIFTS.contains(&&name.to_uppercase()[..]);
    let operands = match parts[..] {
        _ if is_refused_shift(bytes, name) => {
            return (UNTOLD.to_string(), "?,?,?(?)".to_string());
        }
        [r1, place] if is_shift => format!("{},0,{}", figure(r1), based(place)),
        [r1, r2] if is_register(r1) && is_register(r2) => format!("{},{}", figure(r1), figure(r2)),
        [r1, place] if is_register(r1) => format!("{},{}", figure(r1), indexed(place)),
        [r1, r3, place] => format!("{},{},{}", figure(r1), figure(r3), based(place)),
        [first, second] if first.contains(',') => format!("{},{}", plain(first), based(second)),
        [place, byte] => format!("{},{}", based(place), immediate(byte)),
        _ => operands.to_string(),
    };
    (name.to_uppercase(), operands)
}

/// BC or BCR, and the mask, of an extended name.
fn condition(name: &str) -> Option<(&'static str, usize)> {
    let mask_of = |name: &str| CONDITIONS.iter().position(|one| *one == name);
    match (mask_of(name), name.strip_suffix('r').and_then(mask_of)) {
        (Some(mask), _) => Some(("BC", mask)),
        (None, Some(mask)) => Some(("BCR", mask)),
        _ => None,
    }
}

/// Later machines have no shift whose R3 is not 0. (8C and 8D are shifts as well, but not in the set.)
fn is_refused_shift(bytes: &[u8], name: &str) -> bool {
    let is_shift = |code| matches!(code, 0x88..=0x8B | 0x8E | 0x8F);
    name == ".long" && matches!(bytes, [code, second, _, _] if is_shift(*code) && second & 15 != 0)
}

/// Operands, parted at commas that are not in brackets.
fn apart(operands: &str) -> Vec<&str> {
    let mut depth = 0;
    operands
        .split(move |c| {
            depth += i32::from(c == '(') - i32::from(c == ')');
            c == ',' && depth == 0
        })
        .filter(|part| !part.is_empty())
        .collect()
}

fn is_register(text: &str) -> bool {
    text.starts_with("%r")
}

fn figure(text: &str) -> &str {
    text.strip_prefix("%r").unwrap_or(text)
}

fn plain(text: &str) -> String {
    text.replace("%r", "")
}

/// A place with an index: `5`, `5(B)` and `5(X,B)` are all found; so is `5(X`, which is objdump's for nop without a base.
fn indexed(text: &str) -> String {
    let text = plain(text);
    match text.split_once('(') {
        None => format!("{text}(0,0)"),
        Some((figure, index)) if !index.ends_with(')') => format!("{figure}({index},0)"),
        Some((figure, base)) if !base.contains(',') => format!("{figure}(0,{base}"),
        Some(_) => text,
    }
}

/// A place without an index: `5` or `5(B)`.
fn based(text: &str) -> String {
    let text = plain(text);
    if text.contains('(') {
        text
    } else {
        format!("{text}(0)")
    }
}

/// A byte, which objdump has in decimal.
pub fn immediate(text: &str) -> String {
    match text.parse::<u8>() {
        Ok(byte) => format!("X'{byte:02X}'"),
        Err(_) => text.to_string(),
    }
}
