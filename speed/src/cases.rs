//! Generated cases, drawn towards the edges: single steps and short runs of a machine whose pages are of every kind, share few
//! frames, and are reached near their ends.

use crate::machine::{Machine, BUDGET, PAGE};
use common::dice::{Dice, EDGE_WORDS};
use common::set::{length, of_pair, Instruction, Shape, SET};
use common::turns;

pub struct Case {
    pub machine: Machine,
    /// None for a single step.
    pub budget: Option<u32>,
    /// The first instruction's bytes.
    pub text: [u8; 6],
}

/// Displacements near the ends of pages, half pages, and fields that reach over them.
const DISPLACEMENTS: [u32; 14] = [
    0, 2, 4, 0x100, 0x700, 0x7C0, 0x7FA, 0x7FC, 0x7FE, 0x800, 0xF00, 0xFC0, 0xFFC, 0xFFE,
];

/// Addresses near the ends of the map and of the addresses.
const FAR: [u32; 6] = [
    0x1F_FFFC, 0x1F_FF80, 0x20_0000, 0xFF_FFFC, 0xFF_FF80, 0x40_0000,
];

pub fn case(number: u64) -> Case {
    let mut dice = Dice::for_one(0, number);
    let frames = dice.pick(&[1, 2, 2, 4, 4, 4, 4, 4, 4, 4, 4, 8, 8, 8, 16, 64]);
    let mut machine = Machine::new(frames as usize * PAGE);
    fill(&mut dice, &mut machine.memory);
    for word in &mut machine.map {
        *word = page_word(&mut dice, frames);
    }
    for register in &mut machine.registers {
        *register = content(&mut dice);
    }
    machine.counter = counter(&mut dice);
    machine.code = dice.below(4);
    machine.mask = dice.below(16);
    let text = place_code(&mut dice, &mut machine);
    if let Some(one) = of_pair(text[0]) {
        turn(&mut dice, one, text, &mut machine.registers);
    }
    let budget = match dice.below(4) {
        0 => Some(dice.below(12)),
        _ => None,
    };
    let mut case = Case {
        machine,
        budget,
        text,
    };
    if dice.once_in(80) {
        spoil(&mut dice, &mut case);
    }
    case
}

/// Registers at which the first instruction turns, if it has a pair. Without them most divides would be refused.
fn turn(dice: &mut Dice, one: &Instruction, text: [u8; 6], registers: &mut [u32]) {
    let (r1, r2) = (usize::from(text[1] >> 4), usize::from(text[1] & 15));
    let pair = match one.shape {
        Shape::Registers => {
            let (dividend, divisor) = turns::division(dice);
            registers[r2] = divisor;
            dividend
        }
        Shape::Shift => {
            let amount = u32::from(text[3] & 63);
            turns::shifted(dice, amount, 64)
        }
        // The divisor is whatever lies in storage: a word with its sign spread fits more often than not.
        _ => i64::from(dice.word() as i32) as u64,
    };
    if dice.once_in(2) {
        registers[r1 & !1] = (pair >> 32) as u32;
        registers[r1 | 1] = pair as u32;
    }
}

/// One thing that number 6 is for.
fn spoil(dice: &mut Dice, case: &mut Case) {
    let machine = &mut case.machine;
    match dice.below(8) {
        0 => machine.counter |= 0x100_0000,
        1 => machine.code = 4,
        2 => machine.mask = 16,
        3 => machine.map.truncate(511),
        4 => machine.map.push(0),
        5 => machine.registers.truncate(15),
        6 => {
            let bytes = dice.pick(&[0, 2048, PAGE - 1, PAGE + 2, PAGE + 2048, 65 * PAGE]);
            machine.memory.resize(bytes, 0);
        }
        _ => case.budget = Some(BUDGET + 1),
    }
}

fn fill(dice: &mut Dice, memory: &mut [u8]) {
    for eight in memory.chunks_exact_mut(8) {
        let bytes = match dice.below(4) {
            0 => [dice.byte(); 8],
            1 => [0; 8],
            _ => dice.roll().to_be_bytes(),
        };
        eight.copy_from_slice(&bytes);
    }
}

/// Mostly an open page; now and then one that fails one of the tests, or nearly.
fn page_word(dice: &mut Dice, frames: u32) -> u16 {
    let marks = dice.pick(&[0, 0, 0x4000, 0xC000]);
    let frame = dice.below(frames) as u16;
    let kind = match dice.below(24) {
        0 => 0x1000,
        1 => 0x2000,
        2 => 0x3000 | dice.pick(&[0x40, 0x80, 0x100]),
        3 => 0x1000 | 0x40,
        4 | 5 => 0x3800,
        6 | 7 => 0x3400,
        8 => 0x3600,
        9 => 0x3E00,
        10 => 0x3200,
        11 => 0x3000 | dice.below(64) as u16,
        12 => dice.roll() as u16,
        _ => 0x3000,
    };
    marks | kind | frame
}

fn address(dice: &mut Dice) -> u32 {
    let near = match dice.below(20) {
        0 => dice.pick(&FAR),
        1 | 2 => dice.word() & 0x1F_FFFF,
        _ => dice.below(512) << 12 | dice.pick(&DISPLACEMENTS),
    };
    match dice.below(4) {
        0 => near + dice.below(4),
        _ => near & !3,
    }
}

fn content(dice: &mut Dice) -> u32 {
    match dice.below(8) {
        0 | 1 => dice.pick(&EDGE_WORDS),
        2 if dice.once_in(2) => dice.word(),
        2 => address(dice) | dice.below(256) << 24,
        _ => address(dice),
    }
}

fn counter(dice: &mut Dice) -> u32 {
    match dice.below(40) {
        0 => address(dice) & 0xFF_FFFF | 1,
        1 => dice.pick(&FAR),
        _ => (dice.below(512) << 12) + dice.pick(&DISPLACEMENTS),
    }
}

/// Instructions in a row from the counter on, wherever the map has room for their bytes.
fn place_code(dice: &mut Dice, machine: &mut Machine) -> [u8; 6] {
    let first = instruction(dice);
    let mut at = machine.counter;
    let mut text = first;
    for _ in 0..6 {
        for byte in &text[..length(text[0])] {
            put(machine, at, *byte);
            at += 1;
        }
        text = instruction(dice);
    }
    first
}

fn put(machine: &mut Machine, address: u32, byte: u8) {
    let Some(word) = machine.map.get(address as usize / PAGE) else {
        return;
    };
    let upper = if word & 0x600 == 0x600 { 2048 } else { 0 };
    let real = usize::from(word & 0x3F) * PAGE + upper + address as usize % PAGE;
    if let Some(held) = machine.memory.get_mut(real) {
        *held = byte;
    }
}

fn instruction(dice: &mut Dice) -> [u8; 6] {
    let mut text = [0; 6];
    text[0] = match dice.below(20) {
        0 => dice.byte(),
        1 => 0xD2,
        2 => 0xD5,
        _ => dice.pick(&SET).operation,
    };
    text[1] = match text[0] >> 6 {
        3 => dice.pick(&[0, 1, 3, 7, 63, 127, 254, 255]),
        1 if dice.once_in(2) => dice.byte() & 0xF0,
        _ => dice.byte(),
    };
    if of_pair(text[0]).is_some() && !dice.once_in(4) {
        text[1] &= 0xEF;
    }
    let first = based(dice);
    let second = match dice.below(3) {
        0 => first.wrapping_add(dice.below(9) as u16).wrapping_sub(4),
        _ => based(dice),
    };
    text[2..4].copy_from_slice(&first.to_be_bytes());
    text[4..].copy_from_slice(&second.to_be_bytes());
    text
}

/// A base register and a displacement.
fn based(dice: &mut Dice) -> u16 {
    let displacement = match dice.below(8) {
        0 => dice.below(4096),
        1 => dice.pick(&[1, 2, 4, 0xFFC, 0xFFF]),
        _ => 0,
    };
    (dice.below(16) << 12 | displacement) as u16
}
