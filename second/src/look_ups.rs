//! Look-ups for the probe: those at the edges, where the reach or the refusal
//! turns, and generated ones. Each is a machine whose map and memory are asked,
//! with the address and what the byte is wanted for.

use crate::machine::{Machine, E, FRAME, G, H, M, S, U, W, XXX};
use crate::probe::{Case, ACCESSES};
use common::dice::Dice;

const OPEN: u16 = U | S;

/// A page's shapes: whole, whole with H, the lower half, the upper half.
const SHAPES: [u16; 4] = [0, H, M, M | H];

/// Displacements at which a page's reach turns.
const TURNS: [u32; 9] = [0, 1, 2, 2_046, 2_047, 2_048, 2_049, 4_094, 4_095];

/// Sizes of memory: none, and ends of frames and of halves from both sides.
/// Most of them would be refused at the door.
const SIZES: [usize; 24] = [
    0, 1, 2, 2_047, 2_048, 2_049, 4_095, 4_096, 4_097, 6_143, 6_144, 6_145, 8_191, 8_192, 65_535,
    65_536, 65_537, 67_583, 67_584, 67_585, 262_143, 262_144, 262_145, 270_336,
];

/// A map has 512 words; these have fewer, or more.
const MAP_LENGTHS: [usize; 8] = [0, 1, 10, 11, 511, 512, 513, 600];

/// The look-ups at the edges, in a fixed order.
pub fn edges() -> Vec<Case> {
    let mut cases = Vec::new();
    for asked in [
        within_a_page(),
        page_numbers(),
        large_addresses(),
        refused(),
        neighbours(),
    ] {
        for (machine, address) in asked {
            for access in ACCESSES {
                cases.push(Case::look_up(machine.clone(), address, access));
            }
        }
    }
    // These are many: the accesses take turns.
    for asked in [at_the_ends_of_memory(), map_lengths()] {
        for ((machine, address), access) in asked.into_iter().zip(ACCESSES.into_iter().cycle()) {
            cases.push(Case::look_up(machine, address, access));
        }
    }
    cases.extend(other_lists());
    cases
}

/// A machine with so much memory and these page words.
fn with_words(size: usize, words: &[(usize, u16)]) -> Machine {
    let mut machine = Machine::new(size);
    for &(page, word) in words {
        machine.map[page] = word;
    }
    machine
}

/// Page 10 in the midst of memory: every shape at every turn; and, at the ends
/// alone, closed to stores, or with marks.
fn within_a_page() -> Vec<(Machine, u32)> {
    let mut asked = Vec::new();
    for shape in SHAPES {
        for (more, displacements) in [
            (0, &TURNS[..]),
            (E, &[0, 2_047, 2_048, 4_095]),
            (W | G, &[0, 2_047, 4_095]),
        ] {
            for displacement in displacements {
                let machine = with_words(65_536, &[(10, OPEN | shape | more | 3)]);
                asked.push((machine, 0x00_A000 + displacement));
            }
        }
    }
    asked
}

/// For each size of memory, page 10 on the frame of its last byte, of the one
/// before, or on the frame after that: the page's first and last byte, and those
/// about memory's end.
fn at_the_ends_of_memory() -> Vec<(Machine, u32)> {
    let mut asked = Vec::new();
    for size in SIZES {
        let frame_of = |real: usize| (real / 4_096).min(63);
        let last = frame_of(size.saturating_sub(1));
        let mut frames = vec![frame_of(size.saturating_sub(2)), last, last + 1];
        frames.dedup();
        frames.retain(|&frame| frame < 64);
        for (shape, up, length) in [(0, 0, 4_096), (M, 0, 2_048), (M | H, 2_048, 2_048)] {
            for &frame in &frames {
                let machine = with_words(size, &[(10, OPEN | shape | frame as u16)]);
                let start = frame * 4_096 + up;
                let mut reals = vec![start, start + length - 1];
                reals.extend(size.saturating_sub(2)..=size);
                reals.retain(|real| (start..start + length).contains(real));
                reals.sort_unstable();
                reals.dedup();
                for real in reals {
                    asked.push((machine.clone(), (0xA000 + real - start) as u32));
                }
            }
        }
    }
    asked
}

/// Two pages of which one is open, and whose numbers share some of their
/// digits or bits: each of the two is asked for.
fn page_numbers() -> Vec<(Machine, u32)> {
    let mut asked = Vec::new();
    for (one, other) in [
        (10, 110),
        (10, 74),
        (10, 266),
        (10, 138),
        (0, 256),
        (255, 511),
    ] {
        for (open, absent) in [(one, other), (other, one)] {
            let machine = with_words(65_536, &[(open, OPEN | 3), (absent, S | 4)]);
            for page in [open, absent] {
                asked.push((machine.clone(), page as u32 * 4_096 + 7));
            }
        }
    }
    asked
}

/// The last page, what is just past it, and what is far past it, where pages
/// that have the rest of the number are open.
fn large_addresses() -> Vec<(Machine, u32)> {
    let mut asked = Vec::new();
    for length in [512, 600] {
        let mut machine = Machine::new(65_536);
        machine.map = vec![OPEN | 5; length];
        for address in [
            0x1F_F000,
            0x1F_FFFE,
            0x1F_FFFF,
            0x20_0000,
            0x20_0001,
            0x20_A000,
            0x7F_FFFF,
            0xFF_FFFF,
            0x100_0000,
            0x100_A000,
            0x8000_A000,
            u32::MAX,
        ] {
            asked.push((machine.clone(), address));
        }
    }
    asked
}

/// Page words that stand in the way, alone and with others that would give
/// another number.
fn refused() -> Vec<(Machine, u32)> {
    let words = [
        0x0000, // nothing set
        0xC003, // U reset
        0x1003, 0x1FC3, 0x1043, 0x1410, 0x3043, // each X bit
        0x3083, 0x3103, 0x31C3, 0x3050, 0x3403, // M
        0x3603, 0x2003, // S reset
        0x2803, 0x2010, 0x3803, // E
        0x3C03, 0x3810, 0x3010, // past memory
        0x303F, 0x3410, 0x360F, 0x3610,
    ];
    let mut asked = Vec::new();
    for word in words {
        for displacement in [0, 2_048] {
            let machine = with_words(65_536, &[(10, word)]);
            asked.push((machine, 0x00_A000 + displacement));
        }
    }
    asked
}

/// Pages 10 and 11, behind one another in memory or not, or on one frame. The
/// reach ends with the page, whatever comes after it.
fn neighbours() -> Vec<(Machine, u32)> {
    let mut asked = Vec::new();
    for (first, second) in [
        // Right behind one another, both open.
        (OPEN | 3, OPEN | 4),
        (OPEN | 3, OPEN | M | 4),
        (OPEN | M | 3, OPEN | M | H | 3),
        (OPEN | M | H | 3, OPEN | 4),
        (OPEN | M | H | 3, OPEN | M | 4),
        // The second closed, to all or to stores.
        (OPEN | 3, S | 4),
        (OPEN | 3, OPEN | E | 4),
        (OPEN | E | 3, OPEN | 4),
        // On one frame, or the second before the first.
        (OPEN | 3, OPEN | 3),
        (OPEN | M | 3, OPEN | 3),
        (OPEN | 4, OPEN | 3),
        // The second past memory.
        (OPEN | 15, OPEN | 16),
    ] {
        let machine = with_words(65_536, &[(10, first), (11, second)]);
        for address in [0xA000, 0xA7FF, 0xAFFE, 0xAFFF, 0xB000] {
            asked.push((machine.clone(), address));
        }
    }
    asked
}

/// Maps that lack words, or have too many, all open.
fn map_lengths() -> Vec<(Machine, u32)> {
    let mut asked = Vec::new();
    for length in MAP_LENGTHS {
        let mut machine = Machine::new(65_536);
        machine.map = vec![OPEN | 3; length];
        for address in [
            0, 0x9FFF, 0xA000, 0xAFFF, 0xB000, 0x1F_EFFF, 0x1F_F000, 0x1F_FFFF,
        ] {
            asked.push((machine.clone(), address));
        }
    }
    asked
}

/// Registers, mask and the bytes themselves play no part.
fn other_lists() -> Vec<Case> {
    let mut cases = Vec::new();
    for (registers, mask) in [(0, 0), (15, 16), (17, u32::MAX)] {
        for access in ACCESSES {
            let mut machine = with_words(65_536, &[(10, OPEN | 3)]);
            machine.registers = vec![7; registers];
            machine.mask = mask;
            machine.memory[3 * 4_096..3 * 4_096 + 300].fill(0xFF);
            cases.push(Case::look_up(machine, 0x00_A010, access));
        }
    }
    cases
}

/// A look-up by dice: a memory of any size, pages most of which are open, many
/// of them at memory's end, and an address most often near a turn.
pub fn some(dice: &mut Dice) -> Case {
    let mut machine = Machine::new(some_size(dice));
    let last = (machine.memory.len().saturating_sub(1) / 4_096).min(63) as u16;
    if dice.once_in(12) {
        machine.map.resize(dice.pick(&MAP_LENGTHS), 0);
    }
    for word in &mut machine.map {
        *word = some_word(dice, last);
    }
    machine.mask = dice.below(16);
    let address = match dice.below(24) {
        0 => dice.pick(&[0x20_0000, 0x20_A7FF, 0xFF_FFFF, 0x100_0000, 0x100_A000]),
        1 => dice.word(),
        _ => some_address(dice, &machine, last),
    };
    Case::look_up(machine, address, dice.pick(&ACCESSES))
}

fn some_size(dice: &mut Dice) -> usize {
    let pages = 1 + dice.below(64) as usize;
    match dice.below(4) {
        0 => dice.pick(&SIZES),
        1 => pages * 4_096,
        2 => pages * 4_096 - 2_048 + dice.below(3) as usize - 1,
        _ => dice.below(270_337) as usize,
    }
}

/// A page word: most often open, most often about memory's last frame.
fn some_word(dice: &mut Dice, last: u16) -> u16 {
    let frame = match dice.below(10) {
        0 => dice.below(64) as u16,
        1 => (last + 63 + dice.below(3) as u16) & FRAME,
        2..=5 => last,
        _ => dice.below(u32::from(last) + 1) as u16,
    };
    let marks = dice.roll() as u16 & (W | G);
    let shape = dice.pick(&[0, 0, H, M, M | H]);
    let closed = dice.pick(&[0, 0, 0, 0, E]);
    let word = OPEN | marks | shape | closed | frame;
    match dice.below(24) {
        0 => word & !U,
        1 => word & !S,
        2 => word | (dice.roll() as u16 & XXX),
        // Several things at once, perhaps.
        3 => dice.roll() as u16 & !FRAME | frame,
        _ => word,
    }
}

/// An address near a turn of its page, or near where memory ends in its last
/// frame. Of 2,048-byte pages most often the bytes that they have.
fn some_address(dice: &mut Dice, machine: &Machine, last: u16) -> u32 {
    let page = match dice.below(3) {
        0 => dice.pick(&[0, 1, 9, 10, 11, 63, 64, 110, 255, 256, 510, 511]),
        _ => dice.below(512),
    };
    let displacement = match dice.chance(1, 4) {
        true => dice.below(4_096),
        false => {
            let rest = (machine.memory.len() as u32).saturating_sub(u32::from(last) * 4_096);
            let turns = [0, 2_048, 4_096, rest, rest.saturating_sub(2_048)];
            (dice.pick(&turns) + dice.below(7))
                .saturating_sub(3)
                .min(4_095)
        }
    };
    let word = machine.map.get(page as usize).copied().unwrap_or(0);
    let is_half = word & M != 0 && dice.chance(3, 4);
    page * 4_096 + displacement % if is_half { 2_048 } else { 4_096 }
}
