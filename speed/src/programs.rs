//! The programs that are timed: ten loops, the same bytes for every engine. Code is at 002000 in page 2, data in pages 4 and 5.
//! R12 holds the code's address and R11 the number of rounds; a program ends on the zeros behind it, which are no operation. Two of
//! them, m and n, are g and c once more, in pages of 2,048 bytes; h has whole pages, and page 3 of 2,048 bytes.

use crate::machine::{Machine, PAGE};
use crate::month_end;
use common::bytes::from_hex;

pub struct Program {
    pub name: char,
    /// What its code does, for the table.
    pub title: &'static str,
    code: &'static [&'static str],
    registers: &'static [(usize, u32)],
    data: Data,
    pages: Pages,
    /// What a figure is for, and how many of it a round has.
    pub unit: &'static str,
    pub units: u64,
    /// Instructions a round.
    pub instructions: u64,
}

#[derive(Clone, Copy)]
enum Data {
    Zeros,
    /// The word 1 at 4000.
    One,
    /// Page 4 counts its bytes up.
    Counting,
    /// All pages of data count up alike.
    Alike,
}

#[derive(Clone, Copy)]
enum Pages {
    Whole,
    Halves,
    /// Whole ones, and one more that is a half.
    Both,
}

/// A page of a program: where it lies, and its word.
pub struct Place {
    pub page: usize,
    pub real: usize,
    pub bytes: usize,
    pub word: u16,
}

/// A page, its frame, and so that the map has something to do, not the frame of its own number; and which half of it where pages are
/// halves, 0 or 1.
const PLACES: [(usize, usize, usize); 3] = [(2, 7, 0), (4, 9, 1), (5, 3, 0)];
/// Of the program that has pages of both kinds, the page that is a half.
const ONE_MORE: (usize, usize, usize) = (3, 12, 1);
const OPEN: u16 = 0x3000;
/// M, and H for the upper half.
const HALF: u16 = 0x0400;
const UPPER: u16 = 0x0200;
const CODE: u32 = 0x2000;
const MEMORY: usize = 65_536;
const ROUNDS: usize = 11;

/// BCT 11, to the first instruction.
pub const AGAIN: &str = "46B0C000";

/// g and c: what a job does most, and what it moves.
const MIXED: &[&str] = &[
    "186D 95006000 4740C002 58706004 5A706008 5070600C",
    "D20750006004 9180600C 4700C002 8768C002",
    AGAIN,
];
const MIXED_REGISTERS: &[(usize, u32)] = &[(5, 0x5000), (8, 16), (9, 0x47C0), (13, 0x4000)];
const MOVES: &[&str] = &[
    "D2FF50004000 D2FF51004100 D2FF52004200 D2FF53004300",
    "D2FF54004400 D2FF55004500 D2FF56004600 D2FF57004700",
    AGAIN,
];
const MOVES_REGISTERS: &[(usize, u32)] = &[(4, 0x4000), (5, 0x5000)];

pub const PROGRAMS: [Program; 10] = [
    Program {
        name: 'a',
        title: "AR AR SR AR LR XR ALR BCT",
        code: &["1A34 1A53 1B64 1A75 1887 1798 1EA9", AGAIN],
        registers: &[(4, 3), (5, 1), (6, 10_000)],
        data: Data::Zeros,
        pages: Pages::Whole,
        unit: "instruction",
        units: 8,
        instructions: 8,
    },
    Program {
        name: 'b',
        title: "L A ST BXLE",
        code: &["186D 58706000 5A70D000 50706000 8768C002", AGAIN],
        registers: &[(8, 4), (9, 0x4F9C), (13, 0x4000)],
        data: Data::One,
        pages: Pages::Whole,
        unit: "instruction",
        units: 4002,
        instructions: 4002,
    },
    Program {
        name: 'c',
        title: "MVC of 256 bytes",
        code: MOVES,
        registers: MOVES_REGISTERS,
        data: Data::Counting,
        pages: Pages::Whole,
        unit: "move",
        units: 8,
        instructions: 9,
    },
    Program {
        name: 'd',
        title: "CLC of 256 equal bytes",
        code: &[
            "D5FF50004000 D5FF51004100 D5FF52004200 D5FF53004300",
            "D5FF54004400 D5FF55004500 D5FF56004600 D5FF57004700",
            AGAIN,
        ],
        registers: &[(4, 0x4000), (5, 0x5000)],
        data: Data::Alike,
        pages: Pages::Whole,
        unit: "compare",
        units: 8,
        instructions: 9,
    },
    Program {
        name: 'e',
        title: "MVC of 256 bytes, one to the right",
        code: &[
            "D2FF50015000 D2FF51025101 D2FF52035202 D2FF53045303",
            "D2FF54055404 D2FF55065505 D2FF56075606 D2FF57085707",
            AGAIN,
        ],
        registers: &[(4, 0x4000), (5, 0x5000)],
        data: Data::Alike,
        pages: Pages::Whole,
        unit: "move",
        units: 8,
        instructions: 9,
    },
    Program {
        name: 'f',
        title: "MVC of 256 bytes over a page's edge",
        code: &[
            "D2FF60004000 D2FF60004000 D2FF60004000 D2FF60004000",
            "D2FF60004000 D2FF60004000 D2FF60004000 D2FF60004000",
            AGAIN,
        ],
        registers: &[(4, 0x4000), (6, 0x4F80)],
        data: Data::Counting,
        pages: Pages::Whole,
        unit: "move",
        units: 8,
        instructions: 9,
    },
    Program {
        name: 'g',
        title: "CLI BC L A ST MVC(8) TM BC BXLE",
        code: MIXED,
        registers: MIXED_REGISTERS,
        data: Data::Zeros,
        pages: Pages::Whole,
        unit: "instruction",
        units: 1127,
        instructions: 1127,
    },
    Program {
        name: 'h',
        title: "month end: MVC, CLC of many lengths",
        code: month_end::CODE,
        registers: month_end::REGISTERS,
        data: Data::Alike,
        pages: Pages::Both,
        unit: "move or compare",
        units: month_end::UNITS,
        instructions: month_end::UNITS + 1,
    },
    Program {
        name: 'm',
        title: "g in pages of 2,048 bytes",
        code: MIXED,
        registers: MIXED_REGISTERS,
        data: Data::Zeros,
        pages: Pages::Halves,
        unit: "instruction",
        units: 1127,
        instructions: 1127,
    },
    Program {
        name: 'n',
        title: "c in pages of 2,048 bytes",
        code: MOVES,
        registers: MOVES_REGISTERS,
        data: Data::Counting,
        pages: Pages::Halves,
        unit: "move",
        units: 8,
        instructions: 9,
    },
];

/// The bytes of a page.
fn bytes<'a>(machine: &'a mut Machine, place: &Place) -> &'a mut [u8] {
    &mut machine.memory[place.real..][..place.bytes]
}

fn count_up(bytes: &mut [u8]) {
    for (i, byte) in bytes.iter_mut().enumerate() {
        *byte = i as u8 ^ (i >> 8) as u8;
    }
}

fn whole((page, frame, _): (usize, usize, usize)) -> Place {
    Place {
        page,
        real: frame * PAGE,
        bytes: PAGE,
        word: OPEN | frame as u16,
    }
}

fn half((page, frame, half): (usize, usize, usize)) -> Place {
    Place {
        page,
        real: frame * PAGE + half * PAGE / 2,
        bytes: PAGE / 2,
        word: OPEN | HALF | (UPPER * half as u16) | frame as u16,
    }
}

impl Program {
    /// Code, then the pages of data: two, or three where there is one more.
    pub fn places(&self) -> Vec<Place> {
        match self.pages {
            Pages::Whole => PLACES.map(whole).into(),
            Pages::Halves => PLACES.map(half).into(),
            Pages::Both => PLACES
                .map(whole)
                .into_iter()
                .chain([half(ONE_MORE)])
                .collect(),
        }
    }

    /// The machine before so many rounds, at least one.
    pub fn machine(&self, rounds: u32) -> Machine {
        let mut machine = Machine::new(MEMORY);
        let places = self.places();
        for place in &places {
            machine.map[place.page] = place.word;
        }
        let code = from_hex(&self.code.concat());
        bytes(&mut machine, &places[0])[..code.len()].copy_from_slice(&code);
        let data = &places[1..];
        match self.data {
            Data::Zeros => {}
            Data::One => bytes(&mut machine, &data[0])[3] = 1,
            Data::Counting => count_up(bytes(&mut machine, &data[0])),
            Data::Alike => {
                for place in data {
                    count_up(bytes(&mut machine, place));
                }
            }
        }
        for (register, word) in self.registers {
            machine.registers[*register] = *word;
        }
        machine.registers[12] = CODE;
        machine.registers[ROUNDS] = rounds;
        machine.counter = CODE;
        machine
    }
}
