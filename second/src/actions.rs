//! What each instruction does, once all its operands are found.

use crate::machine::{Machine, Parts, ADDRESS_BITS};
use crate::operations as op;
use crate::results::{
    bits_result, carry_result, compare_code, is_negative, mask_has, sign_code, signed, signed_add,
    signed_subtract, widened, zero_code,
};

/// An instruction at work. `old` keeps the registers as they were, so that
/// each of them is read before any is changed.
pub(crate) struct Work<'a> {
    pub(crate) parts: &'a Parts,
    /// Where the bytes of each operand lie.
    places: &'a [Vec<usize>],
    pub(crate) old: Vec<u32>,
}

impl Machine {
    /// An instruction about to be done.
    pub(crate) fn work<'a>(&self, parts: &'a Parts, places: &'a [Vec<usize>]) -> Work<'a> {
        Work {
            parts,
            places,
            old: self.registers.clone(),
        }
    }

    /// Does the instruction.
    pub(crate) fn execute(&mut self, parts: &Parts, places: &[Vec<usize>]) {
        let work = self.work(parts, places);
        self.counter = parts.next;
        match parts.code {
            op::LR | op::L | op::LH | op::LA | op::IC => self.load(&work),
            op::LTR | op::LCR | op::LPR | op::LNR => self.load_and_test(&work),
            op::ST | op::STH | op::STC => self.store(work.old[parts.r1], &places[0]),
            op::LM | op::STM => self.multiple(&work),
            op::CR | op::C | op::CH | op::CLR | op::CL => self.compare(&work),
            op::SLL | op::SRL => self.shift(&work),
            op::SLA | op::SRA => self.shift_word(&work),
            op::SLDA | op::SRDA => self.shift_pair(&work),
            op::MR | op::M | op::MH => self.multiply(&work),
            op::DR | op::D => self.divide(&work),
            op::CLI | op::NI | op::OI | op::XI | op::TM | op::MVI => self.immediate(&work),
            op::MVC => self.move_bytes(&work),
            op::CLC => self.compare_bytes(&work),
            op::BCR | op::BC | op::BALR | op::BAL => self.branch(&work),
            op::BCTR | op::BCT | op::BXH | op::BXLE => self.branch(&work),
            _ => self.combine(&work),
        }
    }

    fn load(&mut self, work: &Work) {
        let (r1, r2) = (work.parts.r1, work.parts.r2);
        self.registers[r1] = match work.parts.code {
            op::LR => work.old[r2],
            op::L | op::LH => self.second_word(work),
            op::LA => work.parts.second,
            op::IC => (work.old[r1] & 0xFFFF_FF00) + self.number_at(&work.places[0]),
            other => unreachable!("{other:02X} is no load"),
        };
    }

    fn load_and_test(&mut self, work: &Work) {
        let value = work.old[work.parts.r2];
        let same = (value, sign_code(value));
        let complement = signed_subtract(0, value);
        let (result, code) = match work.parts.code {
            op::LTR => same,
            op::LCR => complement,
            op::LPR if is_negative(value) => complement,
            op::LPR => same,
            op::LNR if is_negative(value) => same,
            op::LNR => (complement.0, sign_code(complement.0)),
            other => unreachable!("{other:02X} is no load and test"),
        };
        self.registers[work.parts.r1] = result;
        self.code = code;
    }

    /// LM and STM, word by word.
    fn multiple(&mut self, work: &Work) {
        let mut number = work.parts.r1;
        for bytes in work.places[0].chunks(4) {
            if work.parts.code == op::LM {
                self.registers[number] = self.number_at(bytes);
            } else {
                self.store(work.old[number], bytes);
            }
            number = (number + 1) % 16;
        }
    }

    /// What makes a word and a code of two words.
    fn combine(&mut self, work: &Work) {
        let (a, b) = (work.old[work.parts.r1], self.second_word(work));
        let (result, code) = match work.parts.code {
            op::AR | op::A | op::AH => signed_add(a, b),
            op::SR | op::S | op::SH => signed_subtract(a, b),
            op::ALR | op::AL => carry_result(u64::from(a) + u64::from(b)),
            op::SLR | op::SL => carry_result(u64::from(a) + u64::from(!b) + 1),
            op::NR | op::N => bits_result(a & b),
            op::OR | op::O => bits_result(a | b),
            op::XR | op::X => bits_result(a ^ b),
            other => unreachable!("{other:02X} is in the table, and nobody does it"),
        };
        self.registers[work.parts.r1] = result;
        self.code = code;
    }

    fn compare(&mut self, work: &Work) {
        let (a, b) = (work.old[work.parts.r1], self.second_word(work));
        self.code = match work.parts.code {
            op::CR | op::C | op::CH => compare_code(signed(a), signed(b)),
            _ => compare_code(i64::from(a), i64::from(b)),
        };
    }

    fn shift(&mut self, work: &Work) {
        let value = work.old[work.parts.r1];
        let amount = work.parts.second % 64;
        self.registers[work.parts.r1] = match work.parts.code {
            _ if amount >= 32 => 0,
            op::SLL => value << amount,
            _ => value >> amount,
        };
    }

    /// One byte of memory and the immediate byte.
    fn immediate(&mut self, work: &Work) {
        let (real, given) = (work.places[0][0], work.parts.immediate);
        let byte = self.memory[real];
        let changed = match work.parts.code {
            op::CLI => {
                self.code = compare_code(i64::from(byte), i64::from(given));
                return;
            }
            op::TM => {
                self.code = match byte & given {
                    0 => 0,
                    chosen if chosen == given => 3,
                    _ => 1,
                };
                return;
            }
            op::MVI => {
                self.memory[real] = given;
                return;
            }
            op::NI => byte & given,
            op::OI => byte | given,
            op::XI => byte ^ given,
            other => unreachable!("{other:02X} has no immediate byte"),
        };
        self.memory[real] = changed;
        self.code = zero_code(u32::from(changed));
    }

    fn move_bytes(&mut self, work: &Work) {
        for (&target, &source) in work.places[0].iter().zip(&work.places[1]) {
            self.memory[target] = self.memory[source];
        }
    }

    fn compare_bytes(&mut self, work: &Work) {
        self.code = 0;
        for (&left, &right) in work.places[0].iter().zip(&work.places[1]) {
            let (a, b) = (self.memory[left], self.memory[right]);
            if a != b {
                self.code = compare_code(i64::from(a), i64::from(b));
                break;
            }
        }
    }

    fn branch(&mut self, work: &Work) {
        let (parts, old) = (work.parts, &work.old);
        let (r1, r2) = (parts.r1, parts.r2);
        let is_taken = match parts.code {
            op::BCR | op::BC => mask_has(r1, self.code),
            op::BALR | op::BAL => {
                self.registers[r1] = self.link(parts);
                true
            }
            op::BCTR | op::BCT => {
                self.registers[r1] = old[r1].wrapping_sub(1);
                self.registers[r1] != 0
            }
            op::BXH | op::BXLE => {
                let limit = if r2 % 2 == 1 { old[r2] } else { old[r2 + 1] };
                let sum = old[r1].wrapping_add(old[r2]);
                self.registers[r1] = sum;
                (signed(sum) > signed(limit)) == (parts.code == op::BXH)
            }
            other => unreachable!("{other:02X} is no branch"),
        };
        if op::length(parts.code) != 2 {
            if is_taken {
                self.counter = parts.second;
            }
        } else if is_taken && r2 != 0 {
            self.counter = old[r2] & ADDRESS_BITS;
        }
    }

    /// The second operand of an RR or RX instruction on words; a halfword in
    /// memory becomes a word first.
    pub(crate) fn second_word(&self, work: &Work) -> u32 {
        let code = work.parts.code;
        if op::length(code) == 2 {
            work.old[work.parts.r2]
        } else if op::boundary(code) == 2 {
            widened(self.number_at(&work.places[0]))
        } else {
            self.number_at(&work.places[0])
        }
    }

    /// Up to four bytes of memory as a number, leftmost byte first.
    fn number_at(&self, reals: &[usize]) -> u32 {
        let mut number = 0;
        for &real in reals {
            number = number * 256 + u32::from(self.memory[real]);
        }
        number
    }

    /// Put the low-order bytes of a value, as many as there are places.
    fn store(&mut self, value: u32, reals: &[usize]) {
        let mut shift = 8 * reals.len() as u32;
        for &real in reals {
            shift -= 8;
            self.memory[real] = (value >> shift) as u8;
        }
    }

    /// The word that a branch-and-link leaves.
    fn link(&self, parts: &Parts) -> u32 {
        (parts.length_code << 30) | (self.code << 28) | (self.mask << 24) | parts.next
    }
}
