//! What multiply, divide and the signed shifts do with their registers. Except
//! for MH, SLA and SRA these are an even one and the odd one after it.

use crate::actions::Work;
use crate::machine::{Machine, Parts};
use crate::operations as op;
use crate::results::signed;
use crate::wide::{as_pair, divided, low_word, pair_value, product};
use crate::wide::{shifted_left, shifted_right, Width};

impl Machine {
    /// The multiplicand of MR and M is the odd register, and R1 is only where
    /// the product goes; that of MH is R1 itself.
    pub(crate) fn multiply(&mut self, work: &Work) {
        let r1 = work.parts.r1;
        let by = self.second_word(work);
        if work.parts.code == op::MH {
            self.registers[r1] = low_word(product(work.old[r1], by));
        } else {
            self.set_pair(r1, as_pair(product(work.old[r1 + 1], by)));
        }
    }

    /// Quotient and remainder of DR and D, if there are any.
    pub(crate) fn division(&self, parts: &Parts, places: &[Vec<usize>]) -> Option<(u32, u32)> {
        let work = self.work(parts, places);
        divided(pair_of(&work), self.second_word(&work))
    }

    pub(crate) fn divide(&mut self, work: &Work) {
        let by = self.second_word(work);
        let (quotient, remainder) = divided(pair_of(work), by).expect("the quotient was tested");
        self.set_pair(work.parts.r1, (remainder, quotient));
    }

    pub(crate) fn shift_word(&mut self, work: &Work) {
        let value = signed(work.old[work.parts.r1]);
        let (result, code) = match work.parts.code {
            op::SLA => shifted_left(value, amount(work), Width::Word),
            _ => shifted_right(value, amount(work)),
        };
        self.registers[work.parts.r1] = low_word(result);
        self.code = code;
    }

    pub(crate) fn shift_pair(&mut self, work: &Work) {
        let value = pair_of(work);
        let (result, code) = match work.parts.code {
            op::SLDA => shifted_left(value, amount(work), Width::Pair),
            _ => shifted_right(value, amount(work)),
        };
        self.set_pair(work.parts.r1, as_pair(result));
        self.code = code;
    }

    fn set_pair(&mut self, even: usize, (first, second): (u32, u32)) {
        self.registers[even] = first;
        self.registers[even + 1] = second;
    }
}

fn pair_of(work: &Work) -> i64 {
    let even = work.parts.r1;
    pair_value(work.old[even], work.old[even + 1])
}

/// How far to shift: the low six bits of the address.
fn amount(work: &Work) -> u32 {
    work.parts.second % 64
}
