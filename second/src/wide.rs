//! Whole numbers that need not fit in a word: products, quotients and signed
//! shifts, and how they go back into registers.
//!
//! Everything is worked out exactly first and cut to its width afterwards.

use crate::results::signed;

/// How many bits a signed shift works on.
#[derive(Clone, Copy, Debug, PartialEq, Eq)]
pub(crate) enum Width {
    Word,
    Pair,
}

impl Width {
    /// Numbers from minus this up to, not including, this fit.
    fn limit(self) -> i128 {
        match self {
            Width::Word => 1 << 31,
            Width::Pair => 1 << 63,
        }
    }

    fn fits(self, value: i128) -> bool {
        -self.limit() <= value && value < self.limit()
    }
}

/// What two registers hold together: the sign is that of the even one, and the
/// top bit of the odd one is a bit like any other (manual, line 3272).
pub(crate) fn pair_value(even: u32, odd: u32) -> i64 {
    signed(even) * 0x1_0000_0000 + i64::from(odd)
}

/// The even and the odd register for a number.
pub(crate) fn as_pair(value: i64) -> (u32, u32) {
    let odd = low_word(value);
    let even = low_word((value - i64::from(odd)) / 0x1_0000_0000);
    (even, odd)
}

/// The low 32 bits of a number.
pub(crate) fn low_word(value: i64) -> u32 {
    value.rem_euclid(0x1_0000_0000) as u32
}

/// The product of two words; none is too large for a pair (line 3865).
pub(crate) fn product(a: u32, b: u32) -> i64 {
    signed(a) * signed(b)
}

/// Quotient and remainder; nothing when the divisor is zero or the quotient is
/// no signed word (line 3931, the exact part of it). The quotient is cut
/// toward zero, so that the remainder has the dividend's sign (line 3933).
pub(crate) fn divided(dividend: i64, divisor: u32) -> Option<(u32, u32)> {
    if divisor == 0 {
        return None;
    }
    // Wide, since the least of all dividends has a quotient of 2^63 by -1.
    let (dividend, divisor) = (i128::from(dividend), i128::from(signed(divisor)));
    let quotient = dividend / divisor;
    let remainder = dividend - quotient * divisor;
    if !Width::Word.fits(quotient) {
        return None;
    }
    Some((low_word(quotient as i64), low_word(remainder as i64)))
}

/// A number times a power of two. The sign and the low bits beside it are
/// kept; code 3 says that this is not the exact result (lines 3294, 4049).
pub(crate) fn shifted_left(value: i64, amount: u32, width: Width) -> (i64, u32) {
    let exact = i128::from(value) << amount;
    let mut kept = exact.rem_euclid(width.limit());
    if value < 0 {
        kept -= width.limit();
    }
    let code = if width.fits(exact) { code_of(kept) } else { 3 };
    (kept as i64, code)
}

/// A number divided by a power of two, downward: the sign comes in at the
/// left, and what goes out at the right is lost.
pub(crate) fn shifted_right(value: i64, amount: u32) -> (i64, u32) {
    let result = i128::from(value).div_euclid(1 << amount);
    (result as i64, code_of(result))
}

fn code_of(value: i128) -> u32 {
    match value {
        0 => 0,
        _ if value < 0 => 1,
        _ => 2,
    }
}

#[cfg(test)]
mod tests {
    use super::*;

    const WORDS: [u32; 12] = [
        0,
        1,
        2,
        7,
        0x1234_5678,
        0x3FFF_FFFF,
        0x4000_0000,
        0x7FFF_FFFF,
        0x8000_0000,
        0x8000_0001,
        0xFFFF_FFFE,
        0xFFFF_FFFF,
    ];

    /// Every two of the words as a pair.
    fn pairs() -> impl Iterator<Item = (u32, u32)> {
        WORDS
            .into_iter()
            .flat_map(|even| WORDS.into_iter().map(move |odd| (even, odd)))
    }

    #[test]
    fn a_pair_goes_there_and_back() {
        for (even, odd) in pairs() {
            let bits = u64::from(even) << 32 | u64::from(odd);
            assert_eq!(pair_value(even, odd), bits as i64);
            assert_eq!(as_pair(bits as i64), (even, odd));
        }
    }

    #[test]
    fn products_are_those_of_i32() {
        for (a, b) in pairs() {
            assert_eq!(product(a, b), i64::from(a as i32) * i64::from(b as i32));
        }
        assert_eq!(product(0x8000_0000, 0x8000_0000), 1 << 62);
    }

    #[test]
    fn a_division_gives_its_dividend_back() {
        for (even, odd) in pairs() {
            for divisor in WORDS {
                let dividend = i128::from(pair_value(even, odd));
                let by = i128::from(divisor as i32);
                let Some((quotient, remainder)) = divided(pair_value(even, odd), divisor) else {
                    assert!(by == 0 || i32::try_from(dividend / by).is_err());
                    continue;
                };
                let (q, r) = (quotient as i32, remainder as i32);
                let (q, r) = (i128::from(q), i128::from(r));
                assert_eq!(dividend, q * by + r);
                assert!(r.abs() < by.abs());
                assert!(r == 0 || (r < 0) == (dividend < 0));
            }
        }
    }

    #[test]
    fn quotients_at_both_ends() {
        let fits = |dividend, divisor| divided(dividend, divisor).is_some();
        let low = -(1i64 << 31);
        assert!(fits(low, 1) && !fits(low - 1, 1));
        assert!(!fits(low, 0xFFFF_FFFF) && fits(low + 1, 0xFFFF_FFFF));
        assert!(fits(-low, 0xFFFF_FFFF) && !fits(-low, 1));
        assert!(fits(-low - 1, 1) && !fits(-low + 1, 0xFFFF_FFFF));
        // A remainder that is as large as can be does not push the quotient on.
        assert!(fits(2 * low - 1, 2) && !fits(2 * low - 2, 2));
        assert!(fits(-2 * low - 1, 2) && !fits(-2 * low, 2));
        // The square of -2^31, and the same below zero.
        assert!(!fits(1 << 62, 0x7FFF_FFFF) && fits(1 << 62, 0x8000_0000));
        assert!(!fits(-(1 << 62), 0x8000_0000));
        for divisor in WORDS {
            assert!(!fits(i64::MIN, divisor) && !fits(i64::MAX, divisor));
        }
    }

    /// Left shift as the page has it: bit by bit beside the sign, watching what
    /// goes out (line 4050).
    fn left_bit_by_bit(value: i64, amount: u32, bits: u32) -> (i64, bool) {
        let top = 1i128 << (bits - 1);
        let mut integer = i128::from(value) & (top - 1);
        let is_minus = value < 0;
        let mut is_lost = false;
        for _ in 0..amount {
            integer *= 2;
            is_lost |= (integer & top != 0) != is_minus;
            integer &= top - 1;
        }
        let sign = if is_minus { top } else { 0 };
        ((integer - sign) as i64, is_lost)
    }

    #[test]
    fn left_shifts_are_those_done_bit_by_bit() {
        for (even, odd) in pairs() {
            for amount in 0..64 {
                for (value, bits, width) in [
                    (signed(odd), 32, Width::Word),
                    (pair_value(even, odd), 64, Width::Pair),
                ] {
                    let (kept, is_lost) = left_bit_by_bit(value, amount, bits);
                    let (result, code) = shifted_left(value, amount, width);
                    assert_eq!(result, kept, "{value} by {amount}");
                    assert_eq!(code == 3, is_lost, "{value} by {amount}");
                    assert!(code == 3 || i128::from(result) == i128::from(value) << amount);
                    assert!(code == 3 || code == code_of(i128::from(result)));
                }
            }
        }
    }

    #[test]
    fn right_shifts_are_those_of_i64() {
        for (even, odd) in pairs() {
            for amount in 0..64 {
                for value in [signed(odd), pair_value(even, odd)] {
                    let (result, code) = shifted_right(value, amount);
                    assert_eq!(result, value >> amount);
                    assert_eq!(code, code_of(i128::from(result)));
                }
            }
        }
    }
}
