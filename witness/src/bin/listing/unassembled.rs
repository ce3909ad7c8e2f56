//! What Hercules' command `u` says of code, in the spelling of the listing. README.md lists where the two spellings differ.

use crate::spelling::immediate;
use crate::told::{bytes_of, Told, SHIFTS};
use common::hercules;
use std::path::Path;

/// Its lines for pieces of code that stand from an address on, and its version.
pub fn ask(folder: &Path, at: u32, pieces: &[Vec<u8>]) -> Result<(Vec<Told>, String), String> {
    let (lines, version) = hercules::unassemble(folder, at, pieces)?;
    let told = lines.iter().filter_map(|text| line(text)).collect();
    Ok((told, format!("Hercules {version}")))
}

/// A line of an instruction: R and address, bytes, name, operands, and the name in words.
fn line(text: &str) -> Option<Told> {
    let mut parts = text.split_whitespace();
    let address = parts.next()?.strip_prefix('R')?.strip_suffix(':')?;
    let address = u32::from_str_radix(address, 16).ok()?;
    let bytes = bytes_of(parts.next()?)?;
    let name = parts.next()?.to_string();
    let operands = spell(&name, parts.next()?);
    Some(Told {
        address,
        bytes,
        name,
        operands,
        own: text.trim().to_string(),
    })
}

fn spell(name: &str, operands: &str) -> String {
    match operands.split_once(',') {
        Some((r1, place)) if SHIFTS.contains(&name) => format!("{r1},?,{place}"),
        Some((place, byte)) if place.ends_with(')') && !byte.contains('(') => {
            format!("{place},{}", immediate(byte))
        }
        _ => operands.to_string(),
    }
}

#[cfg(test)]
mod tests {
    use super::*;

    fn spells(own: &str, name: &str, operands: &str) {
        line(own).expect(own).spells(name, operands);
    }

    #[test]
    fn each_format() {
        spells(
            "R0000A000: 1A12         AR    1,2                    add_register",
            "AR",
            "1,2",
        );
        spells(
            "R0000A000: 40123456     STH   1,1110(2,3)            store_halfword",
            "STH",
            "1,1110(2,3)",
        );
        spells(
            "R0000A000: 86123456     BXH   1,2,1110(3)            branch_on_index_high",
            "BXH",
            "1,2,1110(3)",
        );
        spells(
            "R0000A000: 88123456     SRL   1,1110(3)              shift_right_single_logical",
            "SRL",
            "1,?,1110(3)",
        );
        spells(
            "R0000A000: 8F123456     SLDA  1,1110(3)              shift_left_double",
            "SLDA",
            "1,?,1110(3)",
        );
        spells(
            "R0000A000: 91123456     TM    1110(3),18             test_under_mask",
            "TM",
            "1110(3),X'12'",
        );
        spells(
            "R0000A000: D2123456789A MVC   1110(19,3),2202(7)     move_character",
            "MVC",
            "1110(19,3),2202(7)",
        );
    }

    #[test]
    fn other_lines_are_no_instructions() {
        for text in [
            "",
            "R0000A000: 0500HHCAO001I Hercules Automatic Operator thread started;",
            "u A000-A351",
            "HHCPN139E Command \"none\" not found; enter '?' for list.",
        ] {
            assert_eq!(line(text), None, "{text}");
        }
    }
}
