//! Sweeps over the values of multiply, divide and the halfword operations.

use super::keep_code;
use crate::draft::{rr, rx, Draft};
use crate::operations as op;
use crate::scene::Scene;
use common::dice::{Dice, EDGE_WORDS};

/// Where words lie in the data pages: in the midst, at the ends, past them.
const PLACES: [u32; 7] = [0, 4, 2_044, 2_048, 4_092, 4_096, 5_000];

/// Gives a pair its two words, the even register's first.
fn set_pair(scene: &mut Scene, even: u8, bits: u64) {
    scene.draft.register(even, (bits >> 32) as u32);
    scene.draft.register(even + 1, bits as u32);
}

/// Adds the operation with this second operand, in a register apart from R1 or
/// in memory.
fn add_apart(scene: &mut Scene, dice: &mut Dice, code: u8, r1: u8, second: u32) {
    if op::length(code) == 2 {
        let r2 = scene.take();
        scene.draft.register(r2, second);
        scene.add(rr(code, r1, r2));
        return;
    }
    let target = scene.data_at(dice.pick(&PLACES));
    scene.put_word(target, second);
    let (x, base, d) = scene.indexed(dice, target);
    scene.add(rx(code, r1, x, base, d));
}

/// MR and M, the multiplier apart, in the pair, or at an address in the pair.
pub fn products(case: u32, dice: &mut Dice) -> Draft {
    let a = EDGE_WORDS[(case / 8 % 8) as usize];
    let b = EDGE_WORDS[(case % 8) as usize];
    let mut scene = Scene::new(dice);
    let even = scene.any_pair(dice);
    let junk = dice.edge_word();
    scene.draft.register(even, junk);
    scene.draft.register(even + 1, a);
    match case / 64 {
        0 => add_apart(&mut scene, dice, op::MR, even, b),
        1 => {
            scene.draft.register(even, b);
            scene.add(rr(op::MR, even, even));
        }
        2 => {
            // A square, whatever the even register holds.
            scene.draft.register(even, b);
            scene.add(rr(op::MR, even, even + 1));
        }
        3 => add_apart(&mut scene, dice, op::M, even, b),
        _ => add_based_in_the_pair(&mut scene, dice, op::M, even, b),
    }
    keep_code(&mut scene, dice);
    scene.finish(dice)
}

/// Adds an operation on a pair one register of which is its base or its index.
fn add_based_in_the_pair(scene: &mut Scene, dice: &mut Dice, code: u8, even: u8, second: u32) {
    let target = scene.data_at(dice.pick(&PLACES));
    scene.put_word(target, second);
    // Register 0 would be no base.
    let number = match even {
        0 => 1,
        _ => even + dice.below(2) as u8,
    };
    let d = dice.pick(&[0, 4, 4_092]);
    scene.draft.register(number, target.wrapping_sub(d));
    let instruction = if dice.chance(1, 2) {
        rx(code, even, number, 0, d)
    } else {
        rx(code, even, 0, number, d)
    };
    scene.add(instruction);
}

const HALVES: [u16; 8] = [
    0x0000, 0x0001, 0x0002, 0x7FFF, 0x8000, 0x8001, 0xFFFE, 0xFFFF,
];

/// The ends of a halfword and one past them, and the words from which a
/// halfword just reaches the end of a word.
const NEAR: [u32; 6] = [
    0x0000_7FFF,
    0x0000_8000,
    0xFFFF_8000,
    0xFFFF_7FFF,
    0x7FFF_8000,
    0x8000_7FFF,
];

/// AH, SH, CH and MH: words at the edges of words and of halfwords.
pub fn halfwords(case: u32, dice: &mut Dice) -> Draft {
    let code = [op::AH, op::SH, op::CH, op::MH][(case % 4) as usize];
    let half = HALVES[(case / 4 % 8) as usize];
    let word = match (case / 32) as usize {
        at @ 0..=7 => EDGE_WORDS[at],
        at => NEAR[at - 8],
    };
    let mut scene = Scene::new(dice);
    let target = scene.data_at(dice.pick(&[0, 2, 2_046, 2_048, 4_094, 4_096]));
    // What lies beside it must not matter.
    scene.put(target & !3, &dice.word().to_be_bytes());
    scene.put(target, &half.to_be_bytes());
    let (x, base, d) = scene.indexed(dice, target);
    let r1 = scene.take_or_zero(dice);
    scene.draft.register(r1, word);
    scene.add(rx(code, r1, x, base, d));
    keep_code(&mut scene, dice);
    scene.finish(dice)
}

/// Quotients at both ends of a word and one past them, and small ones.
const QUOTIENTS: [i64; 9] = [
    -0x8000_0001,
    -0x8000_0000,
    -0x7FFF_FFFF,
    -1,
    0,
    1,
    0x7FFF_FFFF,
    0x8000_0000,
    0x8000_0001,
];

const DIVISORS: [i64; 8] = [
    1,
    -1,
    2,
    -3,
    0x7FFF_FFFF,
    -0x7FFF_FFFF,
    -0x8000_0000,
    -0x7FFF_FFFE,
];

/// DR and D with a quotient, a divisor and a remainder that are chosen.
pub fn quotients(case: u32, dice: &mut Dice) -> Draft {
    let code = [op::DR, op::D][(case % 2) as usize];
    let quotient = QUOTIENTS[(case / 2 % 9) as usize];
    let divisor = DIVISORS[(case / 18 % 8) as usize];
    let largest = divisor.abs() - 1;
    let remainder = [0, largest.min(1), largest][(case / 144) as usize];
    let product = quotient * divisor;
    let is_minus = product < 0 || product == 0 && dice.chance(1, 2);
    let dividend = if is_minus {
        product - remainder
    } else {
        product + remainder
    };
    division(dice, code, dividend as u64, divisor as u32)
}

/// Dividends at the ends of 64 bits and where one word turns into two.
const DIVIDENDS: [u64; 14] = [
    0,
    1,
    0x0000_0000_7FFF_FFFF,
    0x0000_0000_8000_0000,
    0x0000_0000_FFFF_FFFF,
    0x0000_0001_0000_0000,
    0x3FFF_FFFF_FFFF_FFFF,
    0x4000_0000_0000_0000,
    0x7FFF_FFFF_FFFF_FFFF,
    0x8000_0000_0000_0000,
    0xC000_0000_0000_0000,
    0xFFFF_FFFF_0000_0000,
    0xFFFF_FFFF_7FFF_FFFF,
    0xFFFF_FFFF_FFFF_FFFF,
];

/// DR and D of each such dividend by each word at an edge, zero as well.
pub fn dividends(case: u32, dice: &mut Dice) -> Draft {
    let code = [op::DR, op::D][(case % 2) as usize];
    let divisor = EDGE_WORDS[(case / 2 % 8) as usize];
    division(dice, code, DIVIDENDS[(case / 16) as usize], divisor)
}

fn division(dice: &mut Dice, code: u8, dividend: u64, divisor: u32) -> Draft {
    let mut scene = Scene::new(dice);
    let even = scene.any_pair(dice);
    set_pair(&mut scene, even, dividend);
    add_apart(&mut scene, dice, code, even, divisor);
    keep_code(&mut scene, dice);
    scene.finish(dice)
}

/// First words of a dividend: those of one word, and those whose quotient by
/// the ends of a word comes out about the end of a word again.
const FIRSTS: [u32; 8] = [
    0x0000_0000,
    0x0000_0001,
    0x3FFF_FFFF,
    0x7FFF_FFFF,
    0x8000_0000,
    0xC000_0000,
    0xFFFF_FFFE,
    0xFFFF_FFFF,
];

/// DR with the divisor in the pair that it divides.
pub fn divisors_in_the_pair(case: u32, dice: &mut Dice) -> Draft {
    let first = FIRSTS[(case / 8 % 8) as usize];
    let second = EDGE_WORDS[(case % 8) as usize];
    let mut scene = Scene::new(dice);
    let even = scene.any_pair(dice);
    scene.draft.register(even, first);
    scene.draft.register(even + 1, second);
    scene.add(rr(op::DR, even, even + (case / 64) as u8));
    keep_code(&mut scene, dice);
    scene.finish(dice)
}
