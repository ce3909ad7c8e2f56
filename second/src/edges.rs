//! Calls at the edges: every limit of the door from both sides, the end of
//! memory at each size, stores that are refused half way, divisions and other
//! work on register pairs that is refused at its end, and instructions that are
//! fetched and then refused, or would be if the door or the budget let them.
//! Look-ups come last.

use crate::draft::{rr, rs, rx, si, ss};
use crate::look_ups;
use crate::machine::{Machine, E, G, H, M, S, U, W};
use crate::operations as op;
use crate::probe::Case;

const SIZES: [usize; 16] = [
    0, 1, 4_095, 4_096, 4_097, 8_191, 8_192, 8_193, 65_535, 65_536, 65_537, 262_143, 262_144,
    262_145, 266_240, 270_000,
];
const MAP_LENGTHS: [usize; 6] = [0, 1, 511, 512, 513, 600];
const REGISTER_COUNTS: [usize; 6] = [0, 1, 15, 16, 17, 32];
const COUNTERS: [u32; 7] = [
    0x00_A002,
    0x1F_FFFE,
    0x20_0000,
    16_777_214,
    16_777_215,
    16_777_216,
    u32::MAX,
];
const CODES: [u32; 6] = [0, 3, 4, 255, 256, u32::MAX];
const MASKS: [u32; 6] = [0, 15, 16, 255, 256, u32::MAX];
const BUDGETS: [u32; 8] = [0, 1, 2, 3, 4, 65_535, 65_536, u32::MAX];

const OPEN: u16 = U | S;

/// All of them, in a fixed order.
pub fn cases() -> Vec<Case> {
    let mut cases = Vec::new();
    for machine in at_the_door() {
        cases.push(Case::step(machine.clone()));
        for budget in BUDGETS {
            cases.push(Case::run(machine.clone(), budget));
        }
    }
    let refused = memory_ends()
        .into_iter()
        .chain(stopped_half_way())
        .chain(pairs_refused())
        .chain(fetched_and_refused());
    for machine in refused {
        cases.push(Case::step(machine.clone()));
        cases.push(Case::run(machine, 3));
    }
    // No mark comes from an instruction that is not tried.
    let over_the_end = |machine: &Machine| machine.counter == 0x00_AFFE;
    for mut machine in fetched_and_refused().into_iter().filter(over_the_end) {
        cases.push(Case::run(machine.clone(), 0));
        cases.push(Case::run(machine.clone(), 65_536));
        machine.code = 4;
        cases.push(Case::step(machine));
    }
    cases.push(Case::run(endless(), 65_535));
    cases.push(Case::run(endless(), 65_534));
    cases.extend(look_ups::edges());
    cases
}

/// A machine of any size with three instructions, as far as memory has
/// room for them, and zeros after them.
fn small(size: usize) -> Machine {
    let mut program = rx(op::LA, 1, 0, 0, 5);
    program.extend(rr(op::AR, 1, 1));
    program.extend(rx(op::ST, 1, 0, 2, 0x100));
    with_program(size, &program)
}

/// Page 10 is frame 0 and holds the program; register 2 points to it.
fn with_program(size: usize, program: &[u8]) -> Machine {
    let mut machine = Machine::new(size);
    for (place, byte) in machine.memory.iter_mut().zip(program) {
        *place = *byte;
    }
    machine.map[10] = OPEN;
    machine.registers[2] = 0x00_A000;
    machine.counter = 0x00_A000;
    machine
}

/// One limit each; and pairs, since one wrong thing must not hide another.
fn at_the_door() -> Vec<Machine> {
    let mut machines = Vec::new();
    for size in SIZES {
        machines.push(small(size));
    }
    for length in MAP_LENGTHS {
        let mut machine = small(8_192);
        machine.map.resize(length, OPEN);
        machines.push(machine);
    }
    for count in REGISTER_COUNTS {
        let mut machine = small(8_192);
        machine.registers.resize(count, 7);
        machines.push(machine);
        // The last pair of all, which a short list has not or only half.
        for program in [
            rr(op::MR, 14, 14),
            rs(op::SLDA, 14, 0, 0, 1),
            rr(op::DR, 15, 0),
        ] {
            let mut machine = with_program(8_192, &program);
            machine.registers.resize(count, 7);
            machines.push(machine);
        }
    }
    for counter in COUNTERS {
        machines.push(small_in(counter, 1, 2));
    }
    for code in CODES {
        machines.push(small_in(0x00_A000, code, 2));
    }
    for mask in MASKS {
        machines.push(small_in(0x00_A000, 1, mask));
    }
    machines.push(small_in(16_777_216, 4, 16));
    machines.push(small_in(16_777_215, 3, 15));
    machines
}

fn small_in(counter: u32, code: u32, mask: u32) -> Machine {
    let mut machine = small(8_192);
    machine.counter = counter;
    machine.code = code;
    machine.mask = mask;
    machine
}

/// A load and a store around the last byte of each good size of memory.
fn memory_ends() -> Vec<Machine> {
    let mut machines = Vec::new();
    for pages in [1, 2, 3, 63, 64] {
        for operation in [op::IC, op::STC] {
            for word in [OPEN, OPEN | M, OPEN | M | H] {
                for (frame, displacement) in [
                    (pages - 1, 0),
                    (pages - 1, 0x7FF),
                    (pages - 1, 0x800),
                    (pages - 1, 0xFFF),
                    (pages, 0),
                ] {
                    let program = rx(operation, 1, 0, 3, displacement);
                    let mut machine = with_program(usize::from(pages) * 4_096, &program);
                    machine.registers[1] = 0x1234_5678;
                    machine.registers[3] = 0x01_4000;
                    machine.map[20] = word | (frame & 63);
                    machines.push(machine);
                }
            }
        }
    }
    machines
}

/// Stores that lie on pages 20 and 21, and reads from pages 22 and 23, with
/// one page or two not as they should be. Memory must stay.
fn stopped_half_way() -> Vec<Machine> {
    let words = [OPEN, OPEN | E, OPEN | M, S, U, OPEN | 0x40, OPEN | 0x3F];
    let mut machines = Vec::new();
    for program in [
        ss(op::MVC, 255, 3, 0xF80, 4, 0xF80),
        ss(op::MVC, 7, 3, 0xFFC, 3, 0xFFB),
        ss(op::MVC, 7, 3, 0xFFC, 4, 0xFFF),
        ss(op::CLC, 255, 3, 0xF80, 4, 0xF80),
        rs(op::STM, 14, 9, 3, 0xFF8),
        rs(op::LM, 14, 9, 3, 0xFF8),
        rx(op::ST, 1, 0, 3, 0xFFE),
        si(op::NI, 0x0F, 3, 0xFFF),
        si(op::XI, 0xFF, 3, 0x000),
    ] {
        for first in words {
            for second in words {
                for third in [OPEN, OPEN | E, S] {
                    machines.push(fields(&program, [first, second, third]));
                }
            }
        }
    }
    machines
}

/// Pairs and their operand at the end of page 20, which is as it should be or
/// not: an odd register, a divisor that is zero or too small, and beside them
/// what completes.
fn pairs_refused() -> Vec<Machine> {
    let words = [OPEN, OPEN | E, OPEN | M, S, U, OPEN | 0x40, OPEN | 0x3F];
    let programs = [
        rx(op::M, 6, 0, 3, 0xFFC),
        rx(op::M, 7, 0, 3, 0xFFC),
        rx(op::M, 7, 0, 3, 0xFFD),
        rx(op::M, 6, 0, 3, 0xFFE),
        rx(op::D, 6, 0, 3, 0xFFC),
        rx(op::D, 7, 0, 3, 0xFFE),
        rx(op::D, 8, 0, 3, 0xFFC),
        rx(op::MH, 7, 0, 3, 0xFFE),
        rx(op::AH, 7, 0, 3, 0xFFF),
        rr(op::DR, 6, 9),
        rr(op::DR, 8, 6),
        rr(op::MR, 15, 15),
        rs(op::SLDA, 7, 0, 0, 1),
        rs(op::SRDA, 14, 0, 3, 0x01F),
    ];
    let mut machines = Vec::new();
    for program in programs {
        for word in words {
            for divisor in [0, 1, 0x1000, 0xFFFF_FFFF] {
                let mut machine = fields(&program, [word, OPEN, OPEN]);
                machine.memory[2 * 4_096 - 4..2 * 4_096]
                    .copy_from_slice(&u32::to_be_bytes(divisor));
                machine.registers[6..10].copy_from_slice(&[1, 0x8000_0005, 0x8000_0000, divisor]);
                machines.push(machine);
            }
        }
    }
    machines
}

/// Instructions in page 10, or over its end into page 11, that are refused when
/// they are fetched or at any later point. Page 20 cannot be written, and page
/// 21 is absent; page 11 lies past memory in the smaller of the two sizes.
fn fetched_and_refused() -> Vec<Machine> {
    let programs = [
        vec![0xFA, 0x00],
        rr(op::DR, 6, 5),
        rx(op::LA, 1, 0, 0, 5),
        rx(op::ST, 1, 0, 3, 0x100),
        rx(op::L, 1, 0, 3, 0x102),
        rx(op::M, 7, 0, 3, 0x100),
        rx(op::D, 6, 0, 3, 0x100),
        ss(op::MVC, 7, 2, 0x200, 3, 0xFFC),
        ss(op::CLC, 7, 3, 0xFFC, 2, 0x200),
    ];
    let mut machines = Vec::new();
    for program in programs {
        for offset in [0, 0xFFC, 0xFFE] {
            for word in [OPEN, OPEN | W, S | G] {
                for size in [4_096, 8_192] {
                    let mut machine = with_program(size, &[]);
                    for (place, byte) in machine.memory[offset..].iter_mut().zip(&program) {
                        *place = *byte;
                    }
                    machine.counter += offset as u32;
                    machine.registers[3] = 0x01_4000;
                    machine.map[10] |= word & W;
                    machine.map[11] = word | 1;
                    machine.map[20] = OPEN | E;
                    machines.push(machine);
                }
            }
        }
    }
    machines
}

fn fields(program: &[u8], words: [u16; 3]) -> Machine {
    let mut machine = with_program(65_536, program);
    machine.registers[3] = 0x01_4000;
    machine.registers[4] = 0x01_6000;
    for (page, word) in [(20, words[0]), (21, words[1]), (22, words[2]), (23, OPEN)] {
        // A word that names its frame keeps it.
        let frame = if word & 0x3F == 0 { page - 19 } else { 0 };
        machine.map[usize::from(page)] = word | frame;
    }
    // Something to see on both sides of every edge of a page.
    for edge in 1..6 {
        for real in edge * 4_096 - 256..edge * 4_096 + 256 {
            machine.memory[real] = (real % 251) as u8;
        }
    }
    machine
}

/// A branch to itself.
fn endless() -> Machine {
    with_program(4_096, &rx(op::BC, 15, 0, 2, 0))
}

#[cfg(test)]
mod tests {
    use super::*;
    use common::probe::Kind;

    #[test]
    fn what_is_fetched_is_refused_in_every_way() {
        let mut numbers = [0; 9];
        for machine in fetched_and_refused() {
            let mut after = machine.clone();
            let number = after.step().number as usize;
            numbers[number] += 1;
            let marked = (0..512).filter(|&page| after.map[page] != machine.map[page]);
            assert!((1..=2).contains(&marked.count()));
        }
        for number in [0, 1, 2, 3, 4, 5, 8] {
            assert!(numbers[number] >= 4, "{number}: {}", numbers[number]);
        }
    }

    #[test]
    fn the_edges_have_all_kinds_and_leave_room_for_generated_calls() {
        let cases = cases();
        let look_ups = cases.iter().filter(|case| case.kind == Kind::LookUp);
        assert_eq!(look_ups.count(), look_ups::edges().len());
        assert!(look_ups::edges().len() >= 1_000);
        // The gate asks for 7,500 in all.
        assert!(cases.len() <= 6_500, "{} edges", cases.len());
    }
}
