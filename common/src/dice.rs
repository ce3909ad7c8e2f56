//! A small generator of numbers that is the same on every machine (splitmix64), with a few ways to choose.

pub struct Dice {
    state: u64,
}

/// Words about which signs and carries turn.
pub const EDGE_WORDS: [u32; 8] = [
    0x0000_0000,
    0x0000_0001,
    0x0000_0002,
    0x7FFF_FFFF,
    0x8000_0000,
    0x8000_0001,
    0xFFFF_FFFE,
    0xFFFF_FFFF,
];

/// Bytes at the edges, and two with every other bit.
pub const EDGE_BYTES: [u8; 7] = [0x00, 0x01, 0x55, 0x7F, 0x80, 0xAA, 0xFF];

impl Dice {
    pub fn new(seed: u64) -> Dice {
        Dice { state: seed }
    }

    /// Dice for one of the many things that are made from a seed.
    pub fn for_one(seed: u64, index: u64) -> Dice {
        let mut first = Dice::new(seed);
        let mut second = Dice::new(first.roll() ^ index.wrapping_mul(0xD134_2543_DE82_EF95));
        Dice::new(second.roll())
    }

    /// Any number.
    pub fn roll(&mut self) -> u64 {
        self.state = self.state.wrapping_add(0x9E37_79B9_7F4A_7C15);
        let mut mixed = self.state;
        mixed = (mixed ^ (mixed >> 30)).wrapping_mul(0xBF58_476D_1CE4_E5B9);
        mixed = (mixed ^ (mixed >> 27)).wrapping_mul(0x94D0_49BB_1331_11EB);
        mixed ^ (mixed >> 31)
    }

    /// A number from 0 up to, not including, `limit`.
    pub fn below(&mut self, limit: u32) -> u32 {
        (self.roll() % u64::from(limit)) as u32
    }

    /// True so many times in `out_of`.
    pub fn chance(&mut self, times: u32, out_of: u32) -> bool {
        self.below(out_of) < times
    }

    /// True once in `times`.
    pub fn once_in(&mut self, times: u32) -> bool {
        self.chance(1, times)
    }

    pub fn pick<T: Copy>(&mut self, choices: &[T]) -> T {
        choices[self.below(choices.len() as u32) as usize]
    }

    /// Any word.
    pub fn word(&mut self) -> u32 {
        self.roll() as u32
    }

    /// Any byte.
    pub fn byte(&mut self) -> u8 {
        self.roll() as u8
    }

    /// A word, most often at an edge.
    pub fn edge_word(&mut self) -> u32 {
        match self.below(4) {
            0 => self.word(),
            1 => self.below(300),
            _ => self.pick(&EDGE_WORDS),
        }
    }

    /// A byte, most often at an edge.
    pub fn edge_byte(&mut self) -> u8 {
        if self.chance(1, 3) {
            self.byte()
        } else {
            self.pick(&EDGE_BYTES)
        }
    }

    pub fn shuffle<T>(&mut self, list: &mut [T]) {
        let mut left = list.len();
        while left > 1 {
            let other = self.below(left as u32) as usize;
            left -= 1;
            list.swap(left, other);
        }
    }
}

#[cfg(test)]
mod tests {
    use super::*;

    #[test]
    fn the_first_numbers_are_fixed() {
        let mut dice = Dice::new(0);
        assert_eq!(dice.roll(), 0xE220_A839_7B1D_CDAF);
        assert_eq!(dice.roll(), 0x6E78_9E6A_A1B9_65F4);
        assert_eq!(dice.roll(), 0x06C4_5D18_8009_454F);
    }

    #[test]
    fn things_of_one_seed_have_dice_of_their_own() {
        let mut firsts: Vec<u64> = (0..1_000)
            .map(|index| Dice::for_one(1, index).roll())
            .collect();
        firsts.sort_unstable();
        firsts.dedup();
        assert_eq!(firsts.len(), 1_000);
    }
}
