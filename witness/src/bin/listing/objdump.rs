//! What GNU objdump says of code, in the spelling of the listing.

use crate::spelling::spell;
use crate::told::{bytes_of, Told, UNTOLD};
use common::bounded;
use std::fs;
use std::path::Path;
use std::time::Duration;

const PROGRAM: &str = "s390x-linux-gnu-objdump";
const LIMIT: Duration = Duration::from_secs(60);

/// The operation code of STM, which has R1, R3, base and displacement where a shift has them.
const STM: u8 = 0x90;

/// Its lines for code that stands at an address, and its version.
pub fn ask(folder: &Path, at: u32, code: &[u8]) -> Result<(Vec<Told>, String), String> {
    let mut told = lines(folder, at, code)?;
    let again: Vec<u8> = told.iter().flat_map(stand_in).collect();
    let others = lines(folder, at, &again)?;
    if others.len() != told.len() {
        return Err("objdump lists the code otherwise with STM for refused shifts".to_string());
    }
    for (one, other) in told.iter_mut().zip(others) {
        if one.name == UNTOLD {
            one.operands = other.operands;
        }
    }
    let version = said(folder, &["--version"])?;
    Ok((told, version.lines().next().unwrap_or("").to_string()))
}

/// A line's bytes; those of a shift that it refuses with the code of STM, so that it tells the fields.
fn stand_in(told: &Told) -> Vec<u8> {
    let mut bytes = told.bytes.clone();
    if told.name == UNTOLD {
        bytes[0] = STM;
    }
    bytes
}

fn lines(folder: &Path, at: u32, code: &[u8]) -> Result<Vec<Told>, String> {
    let file = folder.join("code");
    fs::write(&file, code).map_err(|error| error.to_string())?;
    let from = format!("--adjust-vma={at}");
    let file = file.display().to_string();
    let form = "-D -z -b binary -m s390:31-bit".split(' ');
    let words: Vec<&str> = form.chain([&from[..], &file]).collect();
    let text = said(folder, &words)?;
    Ok(text.lines().filter_map(line).collect())
}

fn said(folder: &Path, words: &[&str]) -> Result<String, String> {
    let (nothing, answer) = (folder.join("nothing"), folder.join("answer"));
    fs::write(&nothing, "").map_err(|error| error.to_string())?;
    let mut command = bounded::command();
    command.arg(PROGRAM).args(words).env("LC_ALL", "C");
    bounded::filter(command, &nothing, &answer, LIMIT)
        .map_err(|error| format!("objdump: {error}"))?;
    fs::read_to_string(&answer).map_err(|error| error.to_string())
}

/// A line of an instruction: address, bytes, name and operands, parted by tabs.
fn line(text: &str) -> Option<Told> {
    let mut parts = text.split('\t');
    let address = parts.next()?.trim().strip_suffix(':')?;
    let address = u32::from_str_radix(address, 16).ok()?;
    let bytes = bytes_of(parts.next()?)?;
    let (name, operands) = (parts.next()?.trim(), parts.next().unwrap_or("").trim());
    let (name, operands) = spell(&bytes, name, operands);
    Some(Told {
        address,
        bytes,
        name,
        operands,
        own: text.trim().to_string(),
    })
}

#[cfg(test)]
mod tests {
    use super::*;

    fn spells(own: &str, name: &str, operands: &str) {
        line(own).expect(own).spells(name, operands);
    }

    #[test]
    fn each_format() {
        spells("    a000:\t1a 12             \tar\t%r1,%r2", "AR", "1,2");
        spells(
            "    a000:\t40 12 34 56       \tsth\t%r1,1110(%r2,%r3)",
            "STH",
            "1,1110(2,3)",
        );
        spells(
            "    a000:\t86 12 34 56       \tbxh\t%r1,%r2,1110(%r3)",
            "BXH",
            "1,2,1110(3)",
        );
        spells(
            "    a000:\t91 12 34 56       \ttm\t1110(%r3),18",
            "TM",
            "1110(3),X'12'",
        );
        spells(
            "    a000:\td2 12 34 56 78 9a \tmvc\t1110(19,%r3),2202(%r7)",
            "MVC",
            "1110(19,3),2202(7)",
        );
    }

    #[test]
    fn absent_bases_and_indexes() {
        spells(
            "    a000:\t40 00 00 00       \tsth\t%r0,0",
            "STH",
            "0,0(0,0)",
        );
        spells(
            "    a000:\t40 10 30 56       \tsth\t%r1,86(%r3)",
            "STH",
            "1,86(0,3)",
        );
        spells(
            "    a000:\t40 1f 05 56       \tsth\t%r1,1366(%r15,%r0)",
            "STH",
            "1,1366(15,0)",
        );
        spells(
            "    a000:\t86 1f 05 56       \tbxh\t%r1,%r15,1366",
            "BXH",
            "1,15,1366(0)",
        );
        spells(
            "    a000:\t91 1f 05 56       \ttm\t1366,31",
            "TM",
            "1366(0),X'1F'",
        );
        spells(
            "    a000:\td2 1f 05 56 08 9a \tmvc\t1366(32,%r0),2202",
            "MVC",
            "1366(32,0),2202(0)",
        );
    }

    #[test]
    fn names_for_conditions() {
        spells("    a000:\t07 00             \tnopr", "BCR", "0,0");
        spells("    a000:\t07 0f             \tnopr\t%r15", "BCR", "0,15");
        spells("    a000:\t07 ff             \tbr\t%r15", "BCR", "15,15");
        spells("    a000:\t07 4f             \tblr\t%r15", "BCR", "4,15");
        spells(
            "    a000:\t47 40 40 02       \tbl\t2(%r4)",
            "BC",
            "4,2(0,4)",
        );
        spells(
            "    a000:\t47 03 00 01       \tnop\t1(%r3",
            "BC",
            "0,1(3,0)",
        );
        spells(
            "    a000:\t47 f5 6f ff       \tb\t4095(%r5,%r6)",
            "BC",
            "15,4095(5,6)",
        );
    }

    #[test]
    fn shifts() {
        spells(
            "    a000:\t88 10 30 56       \tsrl\t%r1,86(%r3)",
            "SRL",
            "1,0,86(3)",
        );
        spells(
            "    a000:\t88 12 34 56       \t.long\t0x88123456",
            "?",
            "?,?,?(?)",
        );
        spells(
            "    a000:\t88 10 34 56       \t.long\t0x88103456",
            ".LONG",
            "0x88103456",
        );
        spells(
            "    a000:\t8a 10 30 56       \tsra\t%r1,86(%r3)",
            "SRA",
            "1,0,86(3)",
        );
        spells(
            "    a000:\t8f 12 34 56       \t.long\t0x8f123456",
            "?",
            "?,?,?(?)",
        );
        spells(
            "    a000:\t8c 12 34 56       \t.long\t0x8c123456",
            ".LONG",
            "0x8c123456",
        );
    }

    #[test]
    fn a_refused_shift_is_asked_for_again_as_stm() {
        let refused = line("    a000:\t88 12 34 56       \t.long\t0x88123456").expect("a line");
        assert_eq!(stand_in(&refused), [STM, 0x12, 0x34, 0x56]);
        let shift = line("    a000:\t88 10 30 56       \tsrl\t%r1,86(%r3)").expect("a line");
        assert_eq!(stand_in(&shift), shift.bytes);
    }

    #[test]
    fn other_lines_are_no_instructions() {
        for text in [
            "",
            "a.bin:     file format binary",
            "0000a000 <.data>:",
            "\t...",
        ] {
            assert_eq!(line(text), None, "{text}");
        }
    }
}
