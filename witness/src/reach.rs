//! Tests that the cases of multiply, divide, halfword arithmetic and the signed shifts come to the extremes, a thousand of each.

use crate::case::{Case, ADDRESS, ZONE_AT};
use crate::{guest, make};
use common::set::{Shape, SET};

const CASES: usize = 1_000;

/// What an instruction finds.
struct Found {
    r1: usize,
    /// R2, or the index.
    r2: usize,
    /// What R1 holds, and its pair.
    word: i64,
    pair: i64,
    /// The second operand; of a shift the amount.
    second: i64,
}

impl Found {
    fn is_odd(&self) -> bool {
        self.r1 % 2 == 1
    }

    /// The multiplicand.
    fn low(&self) -> i64 {
        i64::from(self.pair as i32)
    }

    fn quotient(&self) -> Option<i128> {
        i128::from(self.pair).checked_div(self.second.into())
    }
}

fn signed(word: u32) -> i64 {
    i64::from(word as i32)
}

/// The address that an RX or RS instruction forms.
fn address(case: &Case, index: usize) -> u32 {
    let text = case.text();
    let content = |register: usize| match register {
        0 => 0,
        _ => case.regs[register],
    };
    let displacement = u32::from(text[2] & 15) << 8 | u32::from(text[3]);
    let sum = content(index).wrapping_add(content((text[2] >> 4).into()));
    sum.wrapping_add(displacement) & ADDRESS
}

/// The halfword or word at an address.
fn operand(case: &Case, at: u32, width: u32) -> i64 {
    let bytes = match at.checked_sub(case.window_at) {
        Some(offset) => &case.window[offset as usize..],
        None => &case.zone[(at - ZONE_AT) as usize..],
    };
    let word = bytes[..width as usize]
        .iter()
        .fold(0, |sum, byte| sum << 8 | u32::from(*byte));
    if width == 2 {
        i64::from(word as u16 as i16)
    } else {
        signed(word)
    }
}

fn found(case: &Case) -> Found {
    let fields = case.text()[1];
    let (r1, r2) = (usize::from(fields >> 4), usize::from(fields & 15));
    let second = match case.instruction.shape {
        Shape::Storage { width, .. } => operand(case, address(case, r2), width),
        Shape::Shift => i64::from(address(case, 0) & 63),
        _ => signed(case.regs[r2]),
    };
    Found {
        r1,
        r2,
        word: signed(case.regs[r1]),
        pair: signed(case.regs[r1 & !1]) << 32 | i64::from(case.regs[r1 | 1]),
        second,
    }
}

/// In how many cases of an instruction something holds.
fn times(name: &str, holds: impl Fn(&Found) -> bool) -> usize {
    let instruction = SET.iter().find(|one| one.name == name).expect(name);
    let all = (0..CASES).map(|number| {
        let window_at = guest::window_at(number % guest::WINDOWS);
        found(&make::make(instruction, number, window_at))
    });
    all.filter(holds).count()
}

/// That it holds in some cases, and not in one by chance.
fn comes_up(name: &str, what: &str, holds: impl Fn(&Found) -> bool) {
    let times = times(name, holds);
    assert!(times >= 2, "{name}: {what} comes up {times} times");
}

const LEAST: i64 = i32::MIN as i64;
const GREATEST: i64 = i32::MAX as i64;

#[test]
fn products() {
    for name in ["MR", "M"] {
        for (one, other) in [
            (LEAST, LEAST),
            (LEAST, GREATEST),
            (GREATEST, GREATEST),
            (LEAST, -1),
            (-1, -1),
            (0, LEAST),
        ] {
            let what = format!("{one} times {other}");
            comes_up(name, &what, |found| {
                let is = |a, b| found.low() == a && found.second == b;
                !found.is_odd() && (is(one, other) || is(other, one))
            });
        }
    }
    comes_up("MH", "a product that does not fit", |found| {
        i32::try_from(found.word * found.second).is_err()
    });
    comes_up("MH", "the least times the least", |found| {
        (found.word, found.second) == (LEAST, -0x8000)
    });
}

#[test]
fn quotients() {
    for name in ["DR", "D"] {
        for wanted in [LEAST - 1, LEAST, -1, 0, 1, GREATEST, GREATEST + 1] {
            comes_up(name, &format!("the quotient {wanted}"), |found| {
                !found.is_odd() && found.quotient() == Some(wanted.into())
            });
        }
        comes_up(name, "a divisor of zero", |found| {
            !found.is_odd() && found.second == 0
        });
        for sign in [1, -1] {
            comes_up(name, &format!("a remainder of sign {sign}"), |found| {
                let fits = found.quotient().is_some_and(|q| i32::try_from(q).is_ok());
                fits && !found.is_odd() && (found.pair % found.second).signum() == sign
            });
        }
    }
}

#[test]
fn pairs() {
    for instruction in SET.iter().filter(|one| one.pair) {
        let odd = times(instruction.name, Found::is_odd);
        assert!(
            odd >= CASES / 50 && odd <= CASES / 5,
            "{}: {odd}",
            instruction.name
        );
    }
    for name in ["MR", "DR"] {
        comes_up(name, "R1 for R2", |found| {
            !found.is_odd() && found.r2 == found.r1
        });
        comes_up(name, "the other register of the pair for R2", |found| {
            !found.is_odd() && found.r2 == found.r1 + 1
        });
    }
}

#[test]
fn sums() {
    for (name, sign) in [("AH", 1), ("SH", -1)] {
        for wanted in [
            LEAST - 1,
            LEAST,
            LEAST + 1,
            -1,
            0,
            1,
            GREATEST - 1,
            GREATEST,
            GREATEST + 1,
        ] {
            comes_up(name, &wanted.to_string(), |found| {
                found.word + sign * found.second == wanted
            });
        }
    }
    for off in [-1, 0, 1] {
        comes_up("CH", &format!("words {off} apart"), |found| {
            found.word - found.second == off
        });
    }
}

/// What a shift finds to shift: a pair, or a word.
fn shifted(found: &Found, bits: u32) -> i128 {
    if bits == 64 {
        found.pair.into()
    } else {
        found.word.into()
    }
}

#[test]
fn amounts() {
    for (name, is_pair) in [
        ("SLA", false),
        ("SRA", false),
        ("SLDA", true),
        ("SRDA", true),
    ] {
        for amount in [0, 1, 30, 31, 32, 33, 62, 63] {
            comes_up(name, &format!("an amount of {amount}"), |found| {
                found.second == amount && !(is_pair && found.is_odd())
            });
        }
    }
}

#[test]
fn shifts_to_the_left() {
    for (name, bits) in [("SLA", 32), ("SLDA", 64)] {
        let fits = |found: &Found, amount: i64| {
            let over = shifted(found, bits) << amount >> (bits - 1);
            over == 0 || over == -1
        };
        for sign in [1, -1] {
            let is_of_sign = |found: &Found| shifted(found, bits).signum() == sign;
            comes_up(name, &format!("the last fit of sign {sign}"), |found| {
                let amount = found.second;
                is_of_sign(found) && fits(found, amount) && !fits(found, amount + 1)
            });
            comes_up(name, &format!("the first misfit of sign {sign}"), |found| {
                let amount = found.second;
                is_of_sign(found) && !fits(found, amount) && fits(found, amount - 1)
            });
        }
    }
}

#[test]
fn shifts_to_the_right() {
    for (name, bits) in [("SRA", 32), ("SRDA", 64)] {
        for left in [-2, -1, 0, 1] {
            comes_up(name, &format!("a result of {left}"), |found| {
                found.second > 0 && shifted(found, bits) >> found.second == left
            });
        }
    }
}
