//! The proved library.

use crate::machine::{Answer, Machine};
use spectra46::raw;

/// Lends the machine to a function of the library.
fn lend(
    machine: &mut Machine,
    call: impl FnOnce(&mut [u8], &mut [u16], &mut [u32], &mut [u32]) -> u32,
) -> Answer {
    let mut reply = [0, 0, 0, machine.counter, machine.code, machine.mask];
    let number = call(
        &mut machine.memory,
        &mut machine.map,
        &mut machine.registers,
        &mut reply,
    );
    let [_, place, count, counter, code, mask] = reply;
    machine.counter = counter;
    machine.code = code;
    machine.mask = mask;
    Answer {
        number,
        place,
        count,
    }
}

pub fn step(machine: &mut Machine) -> Answer {
    lend(machine, raw::step)
}

pub fn run(machine: &mut Machine, budget: u32) -> Answer {
    lend(machine, |memory, map, registers, reply| {
        raw::run(memory, map, registers, reply, budget)
    })
}
