//! Lists a program, loads and runs it, explains why it stopped, and lets it go on.
use spectra46::{Machine, Stop};
use std::error::Error;

// LA 1,5; ALR 1,1; ST 1,0(0,2): twice five, stored where register 2 points.
const PROGRAM: [u8; 10] = [0x41, 0x10, 0x00, 0x05, 0x1E, 0x11, 0x50, 0x10, 0x20, 0x00];

fn main() -> Result<(), Box<dyn Error>> {
    for line in spectra46::listing(&PROGRAM, 0x00_A000)? {
        println!("{}", line?);
    }

    let mut machine = Machine::new(65_536)?;
    machine.pages[10] = 0x3003; // page 10 is usable and nonprivileged, on frame 3
    machine.memory[3 * 4096..3 * 4096 + PROGRAM.len()].copy_from_slice(&PROGRAM);
    machine.registers[2] = 0x00_B000; // in page 11, which is not there yet
    machine.counter = 0x00_A000; // the start of page 10

    let ran = machine.run(100);
    match ran.stop {
        Stop::BudgetSpent => println!("{} steps, budget spent", ran.count),
        Stop::Refused(refusal) => println!("{} steps, then {refusal}", ran.count),
        _ => return Err("stopped for a reason that is not known here".into()),
    }

    machine.pages[11] = 0x3004; // page 11 on frame 4
    machine.step()?;
    println!("stored {}", machine.memory[4 * 4096 + 3]);
    Ok(())
}
