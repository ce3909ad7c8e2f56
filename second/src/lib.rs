//! A second program for the bench sheets of the 70/46, written from the
//! documents alone so that it can be compared with the engine.
//!
//! `answer` goes from the bytes of a sheet to the bytes of its answer. The
//! machine can also be used by itself, with other memory sizes and one step
//! at a time.

mod actions;
pub mod bad;
pub mod census;
pub mod draft;
pub mod edges;
pub mod generate;
pub mod listing;
pub mod look_ups;
pub mod loose;
pub mod machine;
pub mod many;
pub mod moves;
pub mod operations;
mod pairs;
pub mod print;
pub mod probe;
pub mod programs;
pub mod reach;
mod results;
pub mod scene;
pub mod seam;
pub mod seen;
pub mod sheet;
pub mod stretches;
pub mod strips;
pub mod sweeps;
mod wide;

use machine::Machine;
use sheet::Sheet;

/// The answer to a sheet, whatever its bytes.
pub fn answer(text: &[u8]) -> Vec<u8> {
    match sheet::read(text) {
        Err(line_number) => print::bad(line_number),
        Ok(sheet) => {
            let mut machine = set_up(&sheet);
            let before = machine.map.clone();
            let run = machine.run(sheet.budget);
            print::answer(&run, &machine, &before)
        }
    }
}

/// The machine as a sheet describes it.
pub fn set_up(sheet: &Sheet) -> Machine {
    let mut machine = Machine::new(sheet::MEMORY);
    for &(page, word) in &sheet.pages {
        machine.map[page] = word;
    }
    for (address, content) in &sheet.bytes {
        for (index, byte) in content.iter().enumerate() {
            machine.memory[address + index] = *byte;
        }
    }
    for &(number, value) in &sheet.registers {
        machine.registers[number] = value;
    }
    machine.counter = sheet.counter;
    machine.code = sheet.code;
    machine.mask = sheet.mask;
    machine
}
