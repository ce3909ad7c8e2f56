//! Draws for a case, weighted towards the edges.

use common::dice::Dice;

const EDGES: [u32; 20] = [
    0,
    1,
    2,
    0x7F,
    0x80,
    0xFF,
    0x7FFF,
    0x8000,
    0xFFFF,
    0x1_0000,
    0x00FF_FFFF,
    0x0100_0000,
    0x5555_5555,
    0x7FFF_FFFE,
    0x7FFF_FFFF,
    0x8000_0000,
    0x8000_0001,
    0xAAAA_AAAA,
    0xFFFF_FFFE,
    0xFFFF_FFFF,
];

/// Dice for one case of one operation code.
pub fn dice(operation: u8, number: usize) -> Dice {
    let mut first = Dice::new(u64::from(operation) << 40 ^ number as u64);
    Dice::new(first.roll())
}

/// What the dice can do besides.
pub trait Draw {
    /// A byte of storage, of an address that is not kept, or of an immediate operand.
    fn content_byte(&mut self) -> u8;

    /// A register's content.
    fn content_word(&mut self) -> u32;

    /// A word that stands in some relation to `word`: where the carry, the sign, the compare and the overflow turn.
    fn near(&mut self, word: u32) -> u32;

    fn displacement(&mut self) -> u32;

    /// The number of a register; often 0, which has a meaning of its own.
    fn register(&mut self) -> usize;
}

impl Draw for Dice {
    fn content_byte(&mut self) -> u8 {
        match self.below(3) {
            0 => self.pick(&[0, 1, 0x7F, 0x80, 0xFE, 0xFF]),
            _ => self.byte(),
        }
    }

    fn content_word(&mut self) -> u32 {
        match self.below(5) {
            0 => self.word(),
            1 => 1 << self.below(32),
            2 => (1u32 << self.below(32)).wrapping_sub(1),
            _ => self.pick(&EDGES),
        }
    }

    fn near(&mut self, word: u32) -> u32 {
        match self.below(10) {
            0 => word,
            1 => word.wrapping_add(1),
            2 => word.wrapping_sub(1),
            3 => !word,
            4 => word.wrapping_neg(),
            5 => word ^ 0x8000_0000,
            6 => 0x7FFF_FFFFu32.wrapping_sub(word),
            7 => self.pick(&[0, 0x8000_0000]),
            _ => self.content_word(),
        }
    }

    fn displacement(&mut self) -> u32 {
        match self.below(3) {
            0 => self.pick(&[0, 1, 0x7FF, 0x800, 0xFFE, 0xFFF]),
            _ => self.below(4096),
        }
    }

    fn register(&mut self) -> usize {
        match self.below(6) {
            0 => 0,
            _ => self.below(16) as usize,
        }
    }
}
