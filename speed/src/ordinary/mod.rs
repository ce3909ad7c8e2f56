//! An ordinary engine for the same rules, the yardstick: what a competent programmer writes in safe Rust, without a proof in mind.
//! It is written once, over a way to reach storage (`Access`) that is chosen when it is compiled: `ByByte` or `ByPage`.

mod actions;
mod by_byte;
mod by_page;
mod cpu;
mod formats;
mod pairs;
mod results;
mod store;

pub use by_byte::ByByte;
pub use by_page::ByPage;
pub use store::Access;

use crate::machine::{Answer, Machine, BUDGET, BUDGET_SPENT, PAGE};
use cpu::Cpu;
use store::{Refusal, Store, ADDRESS};

const MOST_MEMORY: usize = 64 * PAGE;
const OUT_OF_RANGE: Answer = Answer {
    number: 6,
    place: 0,
    count: 0,
};

/// The machine as a processor works on it, unless a list has a wrong length or a number is out of range.
fn open<A: Access>(machine: &mut Machine) -> Option<Cpu<'_, A>> {
    let bytes = machine.memory.len();
    if bytes == 0 || bytes > MOST_MEMORY || bytes % PAGE != 0 {
        return None;
    }
    if machine.counter > ADDRESS || machine.code > 3 || machine.mask > 15 {
        return None;
    }
    let store = Store {
        memory: &mut machine.memory,
        map: machine.map.as_mut_slice().try_into().ok()?,
    };
    let registers = machine.registers.as_slice().try_into().ok()?;
    Some(Cpu::new(
        registers,
        machine.counter,
        machine.code,
        machine.mask,
        store,
    ))
}

/// Steps up to the first refusal, at most so many.
#[inline(always)]
fn go<A: Access>(machine: &mut Machine, budget: u32) -> Option<(u32, Option<Refusal>)> {
    let mut cpu = open::<A>(machine)?;
    let mut count = 0;
    let mut refused = None;
    while count < budget {
        if let Err(refusal) = cpu.step() {
            refused = Some(refusal);
            break;
        }
        count += 1;
    }
    let (registers, counter, code) = (cpu.registers, cpu.counter, cpu.code);
    machine.registers.copy_from_slice(&registers);
    machine.counter = counter;
    machine.code = code;
    Some((count, refused))
}

fn answer(count: u32, refused: Option<Refusal>, otherwise: u32) -> Answer {
    let (number, place) = match refused {
        Some(refusal) => (refusal.number, refusal.place),
        None => (otherwise, 0),
    };
    Answer {
        number,
        place,
        count,
    }
}

pub fn step<A: Access>(machine: &mut Machine) -> Answer {
    match go::<A>(machine, 1) {
        Some((count, refused)) => answer(count, refused, 0),
        None => OUT_OF_RANGE,
    }
}

pub fn run<A: Access>(machine: &mut Machine, budget: u32) -> Answer {
    if budget > BUDGET {
        return OUT_OF_RANGE;
    }
    match go::<A>(machine, budget) {
        Some((count, refused)) => answer(count, refused, BUDGET_SPENT),
        None => OUT_OF_RANGE,
    }
}
