//! The sweep over the signed shifts, of a word and of a pair.

use super::keep_code;
use crate::draft::{rs, Draft};
use crate::operations as op;
use crate::scene::Scene;
use common::dice::Dice;

/// From 64 on the amount starts again at 0.
const AMOUNTS: [u32; 13] = [0, 1, 2, 30, 31, 32, 33, 61, 62, 63, 64, 65, 127];

/// About the bit beside the sign, which is the first to be lost.
const WORDS: [u32; 9] = [
    0x0000_0000,
    0x0000_0001,
    0x3FFF_FFFF,
    0x4000_0000,
    0x7FFF_FFFF,
    0x8000_0000,
    0xBFFF_FFFF,
    0xC000_0000,
    0xFFFF_FFFF,
];

/// The same, and about the seam of the two registers.
const PAIRS: [u64; 12] = [
    0x0000_0000_0000_0000,
    0x0000_0000_0000_0001,
    0x0000_0000_8000_0000,
    0x3FFF_FFFF_FFFF_FFFF,
    0x4000_0000_0000_0000,
    0x7FFF_FFFF_FFFF_FFFF,
    0x8000_0000_0000_0000,
    0x8000_0000_0000_0001,
    0xBFFF_FFFF_FFFF_FFFF,
    0xC000_0000_0000_0000,
    0xFFFF_FFFF_7FFF_FFFF,
    0xFFFF_FFFF_FFFF_FFFF,
];

pub fn signed_shifts(case: u32, dice: &mut Dice) -> Draft {
    let left = (case % 2) as usize;
    let amount = AMOUNTS[(case / 2 % 13) as usize];
    let has_base = case / 26 % 2 == 1;
    let value = (case / 52) as usize;
    let mut scene = Scene::new(dice);
    let even = scene.any_pair(dice);
    let (code, r1) = if value < WORDS.len() {
        let r1 = even + dice.below(2) as u8;
        scene.draft.register(r1, WORDS[value]);
        ([op::SRA, op::SLA][left], r1)
    } else {
        let bits = PAIRS[value - WORDS.len()];
        scene.draft.register(even, (bits >> 32) as u32);
        scene.draft.register(even + 1, bits as u32);
        ([op::SRDA, op::SLDA][left], even)
    };
    add_shift(&mut scene, dice, (code, r1), amount, has_base);
    keep_code(&mut scene, dice);
    scene.finish(dice)
}

/// The amount as a displacement alone, or as a sum whose high bits are
/// anything.
fn add_shift(
    scene: &mut Scene,
    dice: &mut Dice,
    (code, r1): (u8, u8),
    amount: u32,
    has_base: bool,
) {
    let r3 = dice.below(16) as u8;
    if !has_base {
        scene.add(rs(code, r1, r3, 0, amount));
        return;
    }
    let d = dice.pick(&[0, 1, 63, 64, 4_095]);
    let base = scene.take();
    let high = dice.word() & !63;
    let sum = high.wrapping_add(amount);
    scene.draft.register(base, sum.wrapping_sub(d));
    scene.add(rs(code, r1, r3, base, d));
}
