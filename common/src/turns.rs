//! Operands at which a sum, a product, a quotient or a shift turns: where the sign changes, and where a result just fits or just does
//! not.

use crate::dice::{Dice, EDGE_WORDS};

/// Halfwords about which signs turn.
const EDGE_HALVES: [u16; 7] = [0, 1, 2, 0x7FFF, 0x8000, 0x8001, 0xFFFF];

/// Quotients at both ends of what a word holds, one past them, and about zero.
const QUOTIENTS: [i64; 9] = [
    -(1 << 31) - 1,
    -(1 << 31),
    1 - (1 << 31),
    -1,
    0,
    1,
    (1 << 31) - 1,
    1 << 31,
    (1 << 31) + 1,
];

/// Amounts of a shift about the widths of a register and of a pair.
pub const AMOUNTS: [u32; 11] = [0, 1, 2, 16, 30, 31, 32, 33, 61, 62, 63];

/// The steps from a number to itself and to its neighbours.
const STEPS: [i64; 3] = [-1, 0, 1];

/// A halfword, most often at an edge, with its sign spread over a word.
pub fn half(dice: &mut Dice) -> u32 {
    let half = match dice.below(3) {
        0 => dice.word() as u16,
        _ => dice.pick(&EDGE_HALVES),
    };
    i32::from(half as i16) as u32
}

/// A word that comes to an end of the words, to zero or to a neighbour of these when `other` is added to it or taken from it.
pub fn term(dice: &mut Dice, other: u32) -> u32 {
    let end: u32 = dice.pick(&[0, 0x7FFF_FFFF, 0x8000_0000]);
    let step = dice.pick(&STEPS) as u32;
    let other = dice.pick(&[other, other.wrapping_neg()]);
    end.wrapping_add(step).wrapping_add(other)
}

/// Two words at edges, as one number.
pub fn edge_pair(dice: &mut Dice) -> u64 {
    u64::from(dice.pick(&EDGE_WORDS)) << 32 | u64::from(dice.pick(&EDGE_WORDS))
}

/// A dividend and a divisor, most often with a quotient at an end of the words or one past it, and with any remainder.
pub fn division(dice: &mut Dice) -> (u64, u32) {
    let divisor = dice.edge_word();
    if dice.once_in(8) {
        return (edge_pair(dice), divisor);
    }
    let quotient = match dice.below(4) {
        0 => i64::from(dice.edge_word() as i32),
        _ => dice.pick(&QUOTIENTS),
    };
    let wide = i64::from(divisor as i32);
    let dividend = quotient * wide + remainder(dice, wide);
    (dividend as u64, divisor)
}

/// A number nearer to zero than the divisor; most often zero or as far from it as can be.
fn remainder(dice: &mut Dice, divisor: i64) -> i64 {
    let most = (divisor.abs() - 1).max(0);
    let size = match dice.below(4) {
        0 => 0,
        1 => (dice.roll() % (most as u64 + 1)) as i64,
        2 => most.min(1),
        _ => most,
    };
    dice.pick(&[size, -size])
}

/// A number of so many bits at which a shift by this amount turns: to the left the last that fits at either end, to the right the first
/// of which something is left, or a neighbour of these.
pub fn shifted(dice: &mut Dice, amount: u32, bits: u32) -> u64 {
    let least = i64::MIN >> (64 - bits);
    let near = match dice.below(3) {
        0 => least >> amount,
        1 => !least >> amount,
        _ => dice.pick(&[1, -1]) << amount,
    };
    near.wrapping_add(dice.pick(&STEPS)) as u64
}

#[cfg(test)]
mod tests {
    use super::*;

    const DRAWS: usize = 1_000;

    /// The exact quotient; none for a divisor of zero.
    fn quotient((dividend, divisor): (u64, u32)) -> Option<i128> {
        i128::from(dividend as i64).checked_div(i128::from(divisor as i32))
    }

    #[test]
    fn quotients_come_to_both_ends_and_past_them() {
        let mut dice = Dice::new(1);
        let all: Vec<_> = (0..DRAWS).map(|_| quotient(division(&mut dice))).collect();
        for wanted in QUOTIENTS {
            let met = all.iter().filter(|one| **one == Some(wanted.into()));
            assert!(met.count() >= 10, "{wanted}");
        }
        assert!(all.iter().filter(|one| one.is_none()).count() >= 10);
    }

    #[test]
    fn sums_and_differences_come_to_every_end() {
        let mut dice = Dice::new(1);
        let ends: Vec<i64> = (0..DRAWS)
            .map(|_| {
                let other = half(&mut dice);
                i64::from(term(&mut dice, other) as i32) + i64::from(other as i32)
            })
            .collect();
        for end in [0, i64::from(i32::MAX), i64::from(i32::MIN)] {
            for step in STEPS {
                assert!(ends.contains(&(end + step)), "{end} and {step}");
            }
        }
    }

    #[test]
    fn shifts_just_fit_and_just_do_not() {
        for (bits, amounts) in [(32, 1..31), (64, 1..63)] {
            for amount in amounts {
                let mut dice = Dice::for_one(bits.into(), amount.into());
                let fits = |value: u64| {
                    let wide = i128::from(value as i64) << amount;
                    wide >> (bits - 1) == 0 || wide >> (bits - 1) == -1
                };
                let all: Vec<bool> = (0..DRAWS)
                    .map(|_| fits(shifted(&mut dice, amount, bits)))
                    .collect();
                assert!(all.contains(&true) && all.contains(&false), "{amount}");
            }
        }
    }
}
