//! A program in the making: its pages and frames, and code that is laid down through the map.

use super::Program;
use crate::dice::Dice;

pub const W: u16 = 0x8000;
pub const G: u16 = 0x4000;
const U: u16 = 0x2000;
const S: u16 = 0x1000;
pub const E: u16 = 0x0800;
pub const M: u16 = 0x0400;
pub const H: u16 = 0x0200;
pub const OPEN: u16 = U | S;
const FRAME: u16 = 0x003F;
/// A frame past every memory here.
const PAST_MEMORY: u16 = 40;

pub const PAGE: u32 = 4_096;
pub const HALF: u32 = 2_048;
const FRAMES: u16 = 8;
const PAGES: u32 = 512;

/// What a page behind another may be.
pub const NEXT: u32 = 10;

/// R12 and R13 hold where the code begins, R13 perhaps through another page; R14 and R15 the pages of data; R11 counts the rounds. What
/// an instruction changes is below R10.
pub struct Layout {
    pub program: Program,
    /// The page of the code. The one behind it in the map may lie anywhere in memory.
    pub code: u32,
    /// A page, and the one behind it, that the code's frames may have too.
    pub other: u32,
    /// Two pages of data, one behind the other in the map.
    pub data: u32,
    /// The same again, for branches to go to, and for the second of two fields.
    pub away: u32,
    /// Where the next instruction goes.
    pub here: u32,
}

impl Layout {
    pub fn new(dice: &mut Dice) -> Layout {
        let code = match dice.below(8) {
            0 => dice.pick(&[0, 1, 9, 63, 255]),
            _ => 2 + dice.below(490),
        };
        Layout::at(dice, code)
    }

    /// With the code in this page: all six pages open, each on a frame of its own, with any marks.
    pub fn at(dice: &mut Dice, code: u32) -> Layout {
        // Where the map ends, the other pages lie before it.
        let first = if code < 496 { code + 2 } else { code - 16 };
        let mut layout = Layout {
            program: Program {
                memory: vec![0; usize::from(FRAMES) * PAGE as usize],
                map: vec![0; PAGES as usize],
                registers: (0..16).map(|_| dice.edge_word()).collect(),
                counter: 0,
                code: dice.below(4),
                mask: dice.below(16),
            },
            code,
            other: first + 2,
            data: first + 5,
            away: first + 8,
            here: 0,
        };
        let mut frames: Vec<u16> = (0..FRAMES).collect();
        dice.shuffle(&mut frames);
        for (i, page) in [layout.code, layout.data, layout.away]
            .into_iter()
            .enumerate()
        {
            layout.page(page, OPEN | any_marks(dice) | frames[2 * i]);
            layout.page(page + 1, OPEN | any_marks(dice) | frames[2 * i + 1]);
        }
        layout.program.registers[14] = layout.data * PAGE;
        layout.program.registers[15] = layout.away * PAGE;
        layout
    }

    /// Gives a page its word, if the map has it.
    pub fn page(&mut self, page: u32, word: u16) {
        if let Some(held) = self.program.map.get_mut(page as usize) {
            *held = word;
        }
    }

    pub fn word(&self, page: u32) -> u16 {
        self.program.map.get(page as usize).copied().unwrap_or(0)
    }

    pub fn frame(&self, page: u32) -> u16 {
        self.word(page) & FRAME
    }

    /// Gives a page these marks and no other.
    pub fn mark(&mut self, page: u32, marks: u16) {
        let word = self.word(page) & !(W | G);
        self.page(page, word | marks);
    }

    /// Leaves a page whole, or makes it one of 2,048 bytes, seldom; tells where it ends.
    pub fn shape(&mut self, dice: &mut Dice, page: u32) -> u32 {
        let bits = match dice.below(10) {
            0 => M,
            1 => M | H,
            _ => 0,
        };
        let word = self.word(page);
        self.page(page, word | bits);
        if bits == 0 {
            PAGE
        } else {
            HALF
        }
    }

    /// Gives a page that is behind another its word, of one of the kinds. The first six are open to loads.
    pub fn give_next(&mut self, dice: &mut Dice, page: u32, kind: u32) {
        let (frame, marks) = (self.frame(page), any_marks(dice));
        let word = match kind {
            0 => OPEN | frame,
            1 => OPEN | G | frame,
            2 => OPEN | E | marks | frame,
            3 => OPEN | M | marks | frame,
            4 => OPEN | M | H | marks | frame,
            5 => OPEN | marks | self.frame(page - 1),
            6 => S | marks | frame,
            7 => U | marks | frame,
            8 => OPEN | marks | dice.pick(&[0x0040, 0x0080, 0x0100]) | frame,
            _ => OPEN | marks | PAST_MEMORY,
        };
        self.page(page, word);
    }

    pub fn register(&mut self, number: usize, word: u32) {
        self.program.registers[number] = word;
    }

    /// The code is to begin here.
    pub fn begin(&mut self, address: u32) {
        self.program.counter = address;
        self.here = address;
        self.register(12, address);
        self.register(13, address);
    }

    /// The address of the code's beginning through another page on the same frame: a whole one, or the half in which it lies. The page
    /// behind has the frame of the one behind the code.
    pub fn through_another(&mut self, dice: &mut Dice) -> u32 {
        let start = self.program.counter;
        let real = self.real(start).unwrap_or(0) as u32;
        let word = OPEN | any_marks(dice) | self.frame(self.code);
        let behind = OPEN | any_marks(dice) | self.frame(self.code + 1);
        self.page(self.other + 1, behind);
        if dice.once_in(2) {
            self.page(self.other, word);
            return self.other * PAGE + real % PAGE;
        }
        let upper = if real % PAGE < HALF { 0 } else { H };
        self.page(self.other, word | M | upper);
        self.other * PAGE + real % HALF
    }

    pub fn add(&mut self, instruction: Vec<u8>) {
        self.put(self.here, &instruction);
        self.here += instruction.len() as u32;
    }

    /// Where a byte lies, tests left out, if that is in memory.
    pub fn real(&self, address: u32) -> Option<usize> {
        let word = self.word(address / PAGE);
        let upper = if word & (M | H) == M | H { HALF } else { 0 };
        let real = u32::from(word & FRAME) * PAGE + upper + address % PAGE;
        ((real as usize) < self.program.memory.len()).then_some(real as usize)
    }

    pub fn byte(&self, address: u32) -> u8 {
        self.real(address)
            .map_or(0, |real| self.program.memory[real])
    }

    /// Puts bytes at an address, those of them that have a place.
    pub fn put(&mut self, address: u32, bytes: &[u8]) {
        for (at, byte) in (address..).zip(bytes) {
            if let Some(real) = self.real(at) {
                self.program.memory[real] = *byte;
            }
        }
    }

    /// Any bytes, from an address on.
    pub fn scatter(&mut self, dice: &mut Dice, address: u32, count: u32) {
        let bytes: Vec<u8> = (0..count).map(|_| dice.edge_byte()).collect();
        self.put(address, &bytes);
    }

    /// The program, with code that is not its own beside its own: in the other half of the frame, and behind the page in memory where in
    /// the map the next page follows. An engine that reads there does not find the zeros that would make it ask again.
    pub fn finish(mut self) -> Program {
        let start = self.program.counter;
        let code: Vec<usize> = (start..self.here).filter_map(|at| self.real(at)).collect();
        let first = code.first().copied().unwrap_or(0);
        for address in start..self.here {
            let byte = self.byte(address) ^ (address % 2) as u8;
            let beside = self.real(address).map(|real| real ^ HALF as usize);
            let behind = first + (address - start) as usize;
            for real in beside.into_iter().chain([behind]) {
                if !code.contains(&real) && self.program.memory.get(real) == Some(&0) {
                    self.program.memory[real] = byte;
                }
            }
        }
        self.program
    }
}

pub fn any_marks(dice: &mut Dice) -> u16 {
    dice.pick(&[0, G, W, W | G])
}

/// A kind of page behind another, most often one that is open.
pub fn some_next(dice: &mut Dice) -> u32 {
    match dice.below(4) {
        0 => dice.below(NEXT),
        _ => dice.below(2),
    }
}
