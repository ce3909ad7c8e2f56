//! Printing the answer to a sheet.

use crate::machine::{Machine, Run};

/// The single line for a bad sheet.
pub fn bad(line_number: usize) -> Vec<u8> {
    format!("BAD\t{line_number}\n").into_bytes()
}

/// The lines for a sheet that was run. `before` holds the page words as the
/// sheet gave them; a word is printed when it is no longer the same.
pub fn answer(run: &Run, machine: &Machine, before: &[u16]) -> Vec<u8> {
    let mut text = String::new();
    text += &format!("STOP\t{}\t{:06X}\t{}\n", run.number, run.place, run.count);
    for (number, value) in machine.registers.iter().enumerate() {
        if *value != 0 {
            text += &format!("REG\t{number}\t{value:08X}\n");
        }
    }
    text += &format!(
        "START\t{:06X}\t{}\t{}\n",
        machine.counter, machine.code, machine.mask
    );
    for (page, word) in machine.map.iter().enumerate() {
        if *word != before[page] {
            text += &format!("PAGE\t{page}\t{word:04X}\n");
        }
    }
    text.into_bytes()
}
